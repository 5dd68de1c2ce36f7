#!/usr/bin/env python3
"""Tries the tools of tools/ with the program that is named.

    run_tools.py PROGRAM [CASE ...]

The cases are the functions try_NAME of the modules in tests/tools; all of them are tried, or those that are named. A case that
finds something wrong says so. The last line is 'N passed, N failed'.
"""
import pathlib
import sys

sys.dont_write_bytecode = True
HERE = pathlib.Path(__file__).resolve().parent
sys.path[:0] = [str(HERE / "tools"), str(HERE.parent / "tools")]

import check_rules_cases  # noqa: E402
import device_cases  # noqa: E402
import install_cases  # noqa: E402
import judge_cases  # noqa: E402
import kvc_cases  # noqa: E402
from harness import Wrong, set_program  # noqa: E402

MODULES = [kvc_cases, device_cases, check_rules_cases, judge_cases, install_cases]


def cases():
    return {name.removeprefix("try_"): case for module in MODULES for name, case in vars(module).items() if name.startswith("try_")}


def passes(name, case):
    try:
        case()
    except Wrong as wrong:
        print(f"{name}: {wrong}", flush=True)
        return False
    except Exception as error:  # what a tool wrote was so different that the case couldn't read it, or it couldn't be run
        print(f"{name}: {type(error).__name__}: {error}", flush=True)
        return False
    return True


def main():
    if len(sys.argv) < 2:
        sys.exit(__doc__)
    set_program(pathlib.Path(sys.argv[1]).resolve())
    known = cases()
    names = sys.argv[2:] or list(known)
    unknown = [name for name in names if name not in known]
    if unknown:
        sys.exit(f"no case {unknown[0]}; there are {', '.join(known)}")
    passed = sum(passes(name, known[name]) for name in names)
    failed = len(names) - passed
    print(f"{passed} passed, {failed} failed")
    return 0 if passed and not failed else 1


if __name__ == "__main__":
    sys.exit(main())
