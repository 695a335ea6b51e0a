"""Does what a worker has to do. It needs the standard library alone, so that it runs wherever Python 3.11 is.

Of the rest of this package it has `put_by` of `afdx.files`, whose code goes to the workers of Dask along with its own.
"""
