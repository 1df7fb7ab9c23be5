"""The examples of a page are run, and print what stands below them: Python's behind >>>, a shell's behind $.

    PYTHONPATH=FOLDER python3 python/tests/test_page.py PAGE        from the project's root

Each section is run by itself, in a folder with links to the project's tables and examples. One whose heading ends with "(needs A, B)" is NOT RUN where
one of these modules is not installed. A command that installs something is not run."""

import doctest
import importlib
import os
import re
import subprocess
import sys
import tempfile

OPTIONS = doctest.NORMALIZE_WHITESPACE
INSTALLS = re.compile(r"(pip|apt-get) install ")


def missing(heading):
    """The first module that the section needs and that is not there."""
    needs = re.search(r"\(needs (.*)\)$", heading)
    for name in needs[1].split(", ") if needs else []:
        try:
            importlib.import_module(name)
        except ImportError:
            return name
    return None


def run_python(text, heading):
    """The examples behind >>>: how many failed, and how many there are."""
    test = doctest.DocTestParser().get_doctest(text, {}, heading, None, 0)
    return doctest.DocTestRunner(optionflags=OPTIONS).run(test)


def commands(text):
    """The commands of a shell, each with what it prints."""
    for found in re.finditer(r"^    \$ (.*)\n((?:    (?!\$ ).*\n)*)", text, re.M):
        if not INSTALLS.match(found[1]):
            yield found[1], re.sub(r"^    ", "", found[2], flags=re.M)


def run_shell(text):
    failed = count = 0
    for command, wanted in commands(text):
        ran = subprocess.run(command, shell=True, stdout=subprocess.PIPE, stderr=subprocess.STDOUT)
        count += 1
        if ran.stdout.decode() != wanted:
            failed += 1
            print(f"{command}\nprints\n{ran.stdout.decode()}and not\n{wanted}")
    return failed, count


def main(page):
    with open(page, encoding="utf-8") as file:
        sections = re.split(r"^## ", file.read(), flags=re.M)
    root, total, wrong = os.getcwd(), 0, 0
    os.environ["PATH"] = os.path.dirname(sys.executable) + os.pathsep + os.environ["PATH"]
    with tempfile.TemporaryDirectory() as folder:
        for name in ("tables", "examples"):
            os.symlink(os.path.join(root, name), os.path.join(folder, name))
        os.chdir(folder)
        for section in sections:
            heading = section.partition("\n")[0]
            name = missing(heading)
            if name:
                print(f"  {heading}: NOT RUN, for want of {name}")
                continue
            for failed, count in (run_python(section, heading), run_shell(section)):
                wrong, total = wrong + failed, total + count
        os.chdir(root)
    print(f"  {total} examples")
    return 1 if wrong or not total else 0


sys.exit(main(sys.argv[1]))
