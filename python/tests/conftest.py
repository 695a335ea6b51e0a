"""Settings of all tests: hypothesis draws the same examples each time, at any speed, and keeps none of them.

Signals end what the tests begin, also if whoever began the tests has them ignored, as a shell does for a job in the
background."""
import signal

from hypothesis import HealthCheck, settings

from afdx.signals import ENDING

for number in ENDING:
    if signal.getsignal(number) is signal.SIG_IGN:
        signal.signal(number, signal.SIG_DFL)

settings.register_profile("afdx", database=None, deadline=None, derandomize=True,
                          suppress_health_check=[HealthCheck.function_scoped_fixture, HealthCheck.too_slow])
settings.load_profile("afdx")
