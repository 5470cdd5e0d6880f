"""What tests/compare, compare-exchange, compare-console and stored-runs share: the model, running a program, telling a difference."""
import os
import pathlib
import shlex
import shutil
import subprocess
import tempfile
import threading

HERE = pathlib.Path(__file__).resolve().parent
SECONDS_PER_RUN = 60


def built(name):
    """Where `rt ci`, and `rt run` in the program's folder, leave this program."""
    return HERE.parent / "crates" / name / "out" / name


def build_model(folder):
    """The model's binary: built by rustc into the folder, or the one that the environment variable MODEL names."""
    if os.environ.get("MODEL"):
        return absolute(os.environ["MODEL"])
    model = folder / "model"
    source = HERE / "model" / "main.rs"
    subprocess.run(["rustc", "-O", "--edition", "2021", source, "-o", model], check=True)
    return str(model)


def absolute(program):
    return os.path.abspath(shutil.which(program) or program)


def program_named(named):
    """The words of a command line, its program's path absolute; none if there is no such program."""
    program = [named] if os.path.exists(named) else shlex.split(named)
    if not program or not (shutil.which(program[0]) or os.access(program[0], os.X_OK)):
        return None
    return [absolute(program[0]), *program[1:]]


def output_of(program, most, stdin=os.devnull, folder=None):
    """The first bytes, at most `most`, that the program writes in the folder with this file as standard input,
    and what is wrong with how it ended, if anything. A program that hangs or writes without end is stopped;
    run it on the kept input to see why."""
    with open(stdin, "rb") as source:
        running = subprocess.Popen(program, stdin=source, stdout=subprocess.PIPE,
                                   stderr=subprocess.DEVNULL, cwd=folder)
    stop = threading.Timer(SECONDS_PER_RUN, running.kill)
    stop.start()
    try:
        got = running.stdout.read(most)
        if len(got) == most:
            running.kill()
            return got, None
        status = running.wait()
        return got, f"the program ended with status {status}" if status else None
    finally:
        stop.cancel()
        running.stdout.close()
        running.wait()


def first_different_line(got, wanted):
    got, wanted = got.splitlines(keepends=True), wanted.splitlines(keepends=True)
    place = next((i for i, pair in enumerate(zip(got, wanted)) if pair[0] != pair[1]),
                 min(len(got), len(wanted)))
    show = lambda lines: repr(lines[place].decode(errors="replace")) if place < len(lines) else "nothing"
    return f"line {place + 1}: the program writes {show(got)}, wanted is {show(wanted)}"


def keep(file, name):
    """Copies the file into the folder for temporary files, under this name."""
    kept = pathlib.Path(tempfile.gettempdir()) / name
    shutil.copyfile(file, kept)
    return kept
