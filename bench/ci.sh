#!/bin/sh
# Runs the shell lines of examples/ci/ as a build server would: in a folder with a small Python project, and with a home of its
# own. Of three builds the second has a test that fails, and the third an import that is broken, so that it has no report. A
# release is installed from a folder by its address. Where `python3-subunit` and `python3-testtools` of Debian are missing, it is
# skipped with a word. `pip` is replaced by a command that says what it would install, and the servers' own steps, as caches, by
# what they do to the folder: nothing.
# usage: bench/ci.sh [ARCHIVE]: by default a release of this commit is made.
set -eu

root=$(CDPATH='' cd -- "$(dirname -- "$0")/.." && pwd -P)
python3=/usr/bin/python3
"$python3" -c 'import subunit, testtools' 2>/dev/null || { echo 'ci: skipped, since python3-subunit and python3-testtools are not installed'; exit 0; }
command -v curl >/dev/null || { echo 'ci: skipped, since there is no curl'; exit 0; }

. "$root/bench/archive.sh"
archive=$(CDPATH='' cd -- "$(dirname -- "$archive")" && pwd -P)/$(basename -- "$archive")

ROOT=$root ARCHIVE=$archive PYTHONDONTWRITEBYTECODE=1 "$python3" - "$work" <<'PYTHON'
import os
import re
import subprocess
import sys
import xml.etree.ElementTree as etree

ROOT, ARCHIVE, WORK = os.environ["ROOT"], os.environ["ARCHIVE"], sys.argv[1]
RELEASE = os.path.basename(ARCHIVE)[:-len(".tar.gz")]
CONF = """[DEFAULT]
test_command=/usr/bin/python3 -m subunit.run discover . $LISTOPT $IDOPTION
test_id_option=--load-list $IDFILE
test_list_option=--list
"""
SUITE = """import unittest


class Sums(unittest.TestCase):
    def test_small(self):
        self.assertEqual(1 + 1, 2)

    def test_large(self):
        self.assertEqual(10 ** 20 + 1, %s)

    @unittest.skip("no time")
    def test_later(self):
        pass
"""
RIGHT, WRONG = "10 ** 20 + 1", "10 ** 20"


def lines_of(name):
    """The shell lines of a file, by the step that they stand in."""
    with open(os.path.join(ROOT, "examples", "ci", name)) as file:
        text = file.read()
    if name == "github-actions.yml":
        steps = re.findall(r"- name: (\w[\w ]*)\n(?:        if: .*\n)?        run: \|\n((?:          .*\n)+)", text)
        return {step: [line.strip() for line in lines.splitlines()] for step, lines in steps}
    if name == "gitlab-ci.yml":
        steps = re.findall(r"  (\w+_?script|script):\n((?:    - .*\n)+)", text)
        return {step: [line.strip()[2:] for line in lines.splitlines()] for step, lines in steps}
    steps = re.findall(r"(commands\w*) =\n((?:    .*\n)+)", text)
    return {step: [line.strip().replace(" {posargs}", "") for line in lines.splitlines()] for step, lines in steps}


def check(holds, text):
    if not holds:
        sys.exit(f"ci: {text}")


def shell(folder, lines, env):
    """The status of the lines, of which the first that fails ends them, and what they said."""
    done = subprocess.run(["sh", "-e", "-c", "\n".join(lines)], cwd=folder, env=env, capture_output=True, text=True, timeout=120)
    return done.returncode, done.stdout + done.stderr


def write(folder, name, text, mode=0o644):
    with open(os.path.join(folder, name), "w") as file:
        file.write(text)
    os.chmod(os.path.join(folder, name), mode)


def cases_of(folder):
    """The counts that the report tells, and which of its cases failed."""
    suite = etree.parse(os.path.join(folder, "junit.xml")).getroot()
    failed = [case.get("name") for case in suite if case.find("failure") is not None]
    return [suite.get(name) for name in ("tests", "failures", "skipped")], failed


# The steps of each file: what installs, what tests, and what reports.
FILES = {
    "github-actions.yml": ("Install", "Test", "Report"),
    "gitlab-ci.yml": ("before_script", "script", "after_script"),
    "tox.ini": (None, "commands", "commands_post"),
}

for name, (install, test, report) in FILES.items():
    home = os.path.join(WORK, name.split(".")[0])
    folder, tools = os.path.join(home, "project"), os.path.join(home, "tools")
    os.makedirs(folder)
    os.mkdir(tools)
    write(tools, "pip", "#!/bin/sh\necho would install \"$@\"\n", 0o755)
    write(folder, ".testr.conf", CONF)
    prefix = os.path.join(home, ".local")
    env = {"HOME": home, "PATH": f"{tools}:{prefix}/bin:/usr/bin:/bin", "LC_ALL": "C.UTF-8",
           "HOMBIRZSA": f"file://{os.path.dirname(ARCHIVE)}", "RELEASE": RELEASE}
    lines = lines_of(name)
    check(set(filter(None, (install, test, report))) <= set(lines), f"{name} has the steps {sorted(lines)}")
    # GitLab's image is root's, and installs where only root may write; tox has it installed.
    first = [line.replace("/usr/local", prefix) for line in lines[install]] if install else lines_of("github-actions.yml")["Install"]
    status, said = shell(home, first, env)
    check(status == 0, f"{name}: the installation answers {status}: {said}")
    for number, (value, wanted) in enumerate(((RIGHT, (0, ["3", "0", "1"], [])), (WRONG, (1, ["3", "1", "1"], ["test_large"])))):
        write(folder, "test_sums.py", SUITE % value)
        status, said = shell(folder, lines[test], env)
        check(status == wanted[0], f"{name}: build {number} answers {status}: {said}")
        check(f"(id={number}" in said, f"{name}: build {number} is no run of that number: {said}")
        status, said = shell(folder, lines[report], env)
        check(status == 0 and "test_small" in said, f"{name}: the report of build {number} answers {status}: {said}")
        check(cases_of(folder) == wanted[1:], f"{name}: the report of build {number} tells {cases_of(folder)}")
        os.remove(os.path.join(folder, "junit.xml"))
    write(folder, "test_sums.py", "import nothing_of_this_name\n")
    status, said = shell(folder, lines[test], env)
    check(status == 3 and "nothing_of_this_name" in said, f"{name}: a broken import answers {status}: {said}")
    status, said = shell(folder, lines[report], env)
    check(status == 0 and "test_small" not in said, f"{name}: the report behind a broken import answers {status}: {said}")
    check(not os.path.exists(os.path.join(folder, "junit.xml")), f"{name}: a build without a run has a report")
    print(f"ci: {name}: {sum(map(len, lines.values()))} lines were run, in three builds")
PYTHON
