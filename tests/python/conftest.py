"""Settings of the tests of the Python package."""
import os
import sys

from hypothesis import HealthCheck, settings

ROOT = os.path.dirname(os.path.dirname(os.path.dirname(os.path.abspath(__file__))))
sys.path.insert(0, os.path.join(ROOT, 'python'))
sys.path.insert(0, os.path.dirname(os.path.abspath(__file__)))

# Nothing is kept between runs, and each run tries the same.
settings.register_profile('project', database=None, deadline=None, derandomize=True, max_examples=60,
                          suppress_health_check=list(HealthCheck))
settings.load_profile('project')
