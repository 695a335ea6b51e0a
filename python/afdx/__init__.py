"""What goes round the proved AFDX switch `afdx`: recordings, tables, campaigns and pages."""

__version__ = "1.0.0"
