"""cqual-run: reads what a build compiles and links, runs cqual on each program, and prints what it says."""

import os
import signal
import subprocess
import sys
import tempfile
from concurrent.futures import ProcessPoolExecutor, ThreadPoolExecutor
from concurrent.futures.process import BrokenProcessPool

from .answers import answered
from .builds import chosen, libraries_of, programs_of, read_commands, read_log, wanted_units
from .kept import Kept, key_of
from .libraries import Library, Signer, clashing, grouped, replacing
from .linking import Answers, Linked, apart, refused_code, second_body
from .options import Stop, is_gcc_style
from .run_options import USAGE, cache_of, jobs_of, options_of
from .running import Setting
from .scripts import run_script
from .units import Maker
from .wrapper import wrapped_environment


def say(line):
    print(f"cqual-run: {line}", file=sys.stderr)


class Progress:
    """A line on a terminal that says how far it is; nothing elsewhere."""

    def __init__(self):
        self.is_shown = sys.stderr.isatty()

    def step(self, what, done, of):
        if self.is_shown:
            print(f"\r\033[K{what} {done} of {of}", end="" if done < of else "\r\033[K", file=sys.stderr, flush=True)


def in_parallel(pool, work, items, what, progress):
    """What the work makes of each item, in the order of the items."""
    items = list(items)
    waiting, made = [pool.submit(work, item) for item in items], []
    for done, one in enumerate(waiting):
        progress.step(what, done, len(items))
        made.append(one.result())
    if items:
        progress.step(what, len(items), len(items))
    return made


def ignore_interrupts():
    """What ^C ends is the run, which then ends those who work for it."""
    signal.signal(signal.SIGINT, signal.SIG_IGN)
    signal.signal(signal.SIGTERM, signal.SIG_DFL)


class Run:
    """One run of cqual-run: what was asked for, and the programs with their answers."""

    def __init__(self, options):
        self.options, self.progress = options, Progress()
        self.kept = Kept(cache_of(options), options.has("--fresh"))
        self.setting = Setting(options)
        self.answers = self.threads = None
        # what could not be read: a line or a program of one file, by its name, or by the checksum of its text
        self.unread = {}
        # the libraries of the build, where programs are to take their signatures
        self.libraries = []

    def programs(self):
        """The programs that the build makes."""
        if not self.options.make:
            return chosen(read_commands(self.options.commands), self.options)
        build = self.logged_build()
        for fault in build.faults:
            say(f"not logged: {fault}")
        made = programs_of(build)
        if self.options.has("--libraries"):
            self.libraries = libraries_of(build)
        if not made:
            raise Stop(8, "no compile was seen: cqual-run sees compilers that are found by $PATH or $CC, in what is built anew")
        return chosen(made, self.options)

    def logged_build(self):
        """Runs the build behind the wrappers, and reads its log with what is left of earlier ones."""
        make = self.options.make
        key = key_of(os.getcwd(), make)
        log, wrappers = self.kept.path("builds", key + ".log"), self.kept.path("builds", key)
        if self.options.has("--fresh") and os.path.exists(log):
            os.remove(log)
        # The folder stays: a `cmake` or a `configure` inside the build writes down where it found a compiler
        environment = wrapped_environment(wrappers, log)
        ran = subprocess.run(["sh", "-c", make], env=environment, stdout=sys.stderr, check=False)
        if ran.returncode:
            line = f"the build ended with status {ran.returncode}: {make}"
            if not self.options.has("--keep-going"):
                raise Stop(8, line)
            say(line)
        if not os.path.exists(log):
            open(log, "w", encoding="utf-8").close()
        return read_log(log)

    def linked(self):
        """All programs with their answers."""
        programs = self.programs()
        with tempfile.TemporaryDirectory(prefix="cqual-run-") as room, ThreadPoolExecutor(jobs_of(self.options)) as threads:
            self.answers, self.threads = Answers(self.setting, self.kept, room), threads
            self.answers.check_setting()
            readies = self.prepared(programs)
            signed = self.signed(readies)
            made = []
            for program in programs:
                made += self.split(program, [readies[unit] for unit in program.units])
            made = self.with_libraries(made, signed)
            self.ask([one for one in made if not one.fault], "linked")
            made = self.without_second_bodies(made)
            self.find_unread(made)
            return self.without_second_bodies(self.without_unread(made))

    def prepared(self, programs):
        """What is ready of each unit."""
        units = list(dict.fromkeys(unit for program in programs for unit in program.units))
        try:
            with ProcessPoolExecutor(jobs_of(self.options), initializer=ignore_interrupts) as pool:
                made = in_parallel(pool, Maker(self.setting, self.kept).ready, units, "preprocessed", self.progress)
        except BrokenProcessPool as fault:
            raise Stop(6, "a process that makes a text was ended from outside; perhaps there was not enough memory: try -j 1") from fault
        return dict(zip(units, made))

    def signed(self, readies):
        """The libraries of which programs have units, with their signatures or why they have none."""
        made = []
        for one in self.libraries:
            units = wanted_units(one, self.options)
            if any(unit in readies for unit in units):
                made.append(self.library(one, [readies.get(unit) for unit in units]))
        if made:
            signer = Signer(self.answers)
            in_parallel(self.threads, signer.read, made, "read", self.progress)
            grouped(made)
            whole = [one for one in made if not any(member.fault for member in one.group)]
            in_parallel(self.threads, signer.sign, whole, "signed", self.progress)
            for one in made:
                first = next((member for member in one.group if member.fault), one)
                one.fault = one.fault or (first.fault and f"{first.name} has none")
        return made

    def library(self, one, found):
        """A library of a build by what is ready of its units."""
        made = Library(one.name, [ready for ready in found if ready is not None and not ready.fault])
        if one.unknown or len(made.readies) < len(found):
            made.fault = "not all of its sources are read"
        return made

    def with_libraries(self, programs, libraries):
        """The programs, which take the signatures of libraries in place of their sources, without those that are such a library."""
        self.print_libraries(libraries)
        whole = [one.sums for one in libraries if not one.fault]
        programs = [one for one in programs if {ready.sum for ready in one.readies} not in whole]
        for one in programs:
            if one.fault or one.left_out:
                continue
            one.libraries = replacing(libraries, one.readies)
            for library in clashing(libraries, one.readies):
                say(f"{one.name}: {library.name} is linked whole: it names a function of the program, or both have one")
            replaced = {ready.sum for library in one.libraries for ready in library.all_readies}
            one.readies = [ready for ready in one.readies if ready.sum not in replaced]
        return programs

    def print_libraries(self, libraries):
        for one in libraries:
            if one.fault:
                print(f"library {one.name}: linked whole: {one.fault}", flush=True)
                continue
            count = one.count()
            print(f"library {one.name}: {count} {'signature' if count == 1 else 'signatures'}", flush=True)
            if self.options.reports:
                self.keep_file(one.name, ".signatures", one.text)

    def split(self, program, readies):
        """The program, or those that it is where functions have two bodies. What is not ready is noted."""
        for name in program.unknown:
            self.unread[name] = f"{name}: no compile of this object was logged: build from clean"
        for ready in readies:
            if ready.fault:
                self.unread[ready.unit.shown] = f"{ready.unit.shown}: {ready.fault}"
        lacking = [*program.unknown, *(ready.unit.shown for ready in readies if ready.fault)]
        made = []
        for number, group in enumerate(apart([ready for ready in readies if not ready.fault]), 1):
            one = Linked(self.answers, program.name if number == 1 else f"{program.name}-{number}", group, list(lacking))
            one.fault = "" if group else f"{program.name}: none of its sources can be read"
            made.append(one)
        if len(made) > 1:
            say(f"{program.name}: functions have bodies in several files; each of these is linked with all files that collide with none")
            common = {ready.sum for ready in made[0].readies}.intersection(*({ready.sum for ready in one.readies} for one in made))
            for one in made:
                say(f"{one.name} has {', '.join(ready.unit.shown for ready in one.readies if ready.sum not in common)}")
        return made

    def ask(self, programs, what):
        in_parallel(self.threads, self.answers.ask, programs, what, self.progress)

    def without_second_bodies(self, programs):
        """The programs, where a unit that cqual finds to have a second body is one by itself."""
        made, waiting = [], list(programs)
        while waiting:
            one = waiting.pop(0)
            unit = second_body(one) if not one.fault else None
            if unit is None:
                made.append(one)
                continue
            other = Linked(self.answers, f"{one.name}-without", [unit])
            say(f"{one.name}: a function of {unit.unit.shown} has a body in another file too; {other.name} is this file alone")
            one.readies = [ready for ready in one.readies if ready is not unit]
            self.ask([one, other], "linked")
            waiting[:0] = [one, other]
        return made

    def find_unread(self, programs):
        """Asks of each unit of a program that cannot be judged whether it can be read by itself."""
        doubtful = {}
        for one in programs:
            if one.left_out or refused_code(one):
                doubtful.update({ready.sum: ready for ready in one.readies})
        alone = [Linked(self.answers, ready.unit.shown, [ready]) for ready in doubtful.values()]
        self.ask(alone, "read")
        for one in alone:
            if refused_code(one):
                self.unread[one.readies[0].sum] = one

    def without_unread(self, programs):
        """The programs, without what cannot be read where the run goes on."""
        again = []
        for one in programs:
            one.left_out += [ready.unit.shown for ready in one.readies if ready.sum in self.unread]
            if not one.left_out or one.fault:
                continue
            if not self.options.has("--keep-going"):
                count = len(one.left_out)
                one.fault = f"{one.name}: {count} of its files cannot be read: --keep-going leaves {'it' if count == 1 else 'them'} out"
                continue
            one.readies = [ready for ready in one.readies if ready.sum not in self.unread]
            if one.readies:
                again.append(one)
            else:
                one.fault = f"{one.name}: none of its sources can be read"
        self.ask(again, "linked")
        return programs

    def print(self, programs):
        """Prints all, and returns the status."""
        different = {one if isinstance(one, str) else one.printed: one for one in self.unread.values()}
        for one in different.values():
            if isinstance(one, str):
                say(one)
            else:
                self.print_answer(one)
        statuses = [self.print_program(one) for one in programs]
        worse = [status for status in statuses if status > 2]
        status = worse[0] if worse else 1 if 1 in statuses else 2 if 2 in statuses else 0
        return 0 if self.options.has("--no-fail") and status in (1, 2) else status

    def print_program(self, one):
        """Prints what came of a program, and returns its status."""
        if one.fault:
            say(one.fault)
            return one.status if one.status > 2 else 2
        left_out = f", {len(one.left_out)} left out" if one.left_out else ""
        plural = "source" if len(one.readies) == 1 else "sources"
        taken = f", signatures of {', '.join(library.name for library in one.libraries)}" if one.libraries else ""
        print(f"program {one.name}: {len(one.readies)} {plural}{left_out}{taken}", flush=True)
        if self.options.reports:
            self.keep_file(one.name, ".report", one.printed)
        return self.print_answer(one)

    def print_answer(self, one):
        """Prints what cqual said, and returns the status."""
        if is_gcc_style(self.options) or self.options.baseline:
            return answered(one)
        sys.stdout.buffer.write(one.printed.encode("latin-1"))
        sys.stdout.flush()
        return one.status

    def keep_file(self, name, ending, text):
        path = os.path.join(self.options.reports, name.replace(os.sep, "_") + ending)
        try:
            os.makedirs(self.options.reports, exist_ok=True)
            with open(path, "wb") as file:
                file.write(text.encode("latin-1"))
        except OSError as fault:
            raise Stop(9, f"cannot write {path}: {fault.strerror}") from fault


def run_with(words):
    """The status of a run, with all that it prints."""
    run = Run(options_of(words))
    return run.print(run.linked())


def main(words):
    return run_script("cqual-run", USAGE, words, lambda: run_with(words))
