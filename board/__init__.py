"""The board server: the days of `cdmseq serve`, reached over HTTP. It knows no rule of the sequence."""
import importlib.util
import sys

PACKAGES = {"aiohttp": "python3-aiohttp", "prometheus_client": "python3-prometheus-client", "itsdangerous": "python3-itsdangerous",
            "sdnotify": "python3-sdnotify"}
if missing := [package for module, package in PACKAGES.items() if importlib.util.find_spec(module) is None]:
    sys.exit(f"cdmboard: {' and '.join(missing)} missing: sudo apt-get install {' '.join(missing)}")
