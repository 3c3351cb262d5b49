"""Lets pytest run the cases of `checks/`: `python3 -m pytest tools [--program PATH] [--times N]`."""
import os

from keystore.cases import TIMES
from keystore.harness import CHOSEN, SLOWER, program_at


def pytest_addoption(parser):
    parser.addoption(
        "--program", type=program_at, help="the program that is checked; the proved one where none is named"
    )
    parser.addoption("--patience", type=int, default=1, help="wait so many times as long, as the checked program needs")
    parser.addoption("--times", type=int, default=1, help="draw and repeat so many times as much as the gate does")


def pytest_configure(config):
    if config.getoption("--program"):
        os.environ[CHOSEN] = str(config.getoption("--program"))
    os.environ[TIMES], os.environ[SLOWER] = str(config.getoption("--times")), str(config.getoption("--patience"))
