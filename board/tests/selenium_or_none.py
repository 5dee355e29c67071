"""Names of keys, where selenium is there; the tests that want it are skipped where it isn't."""
try:
    from selenium.webdriver.common.keys import Keys
except ImportError:
    Keys = None
__all__ = ["Keys"]
