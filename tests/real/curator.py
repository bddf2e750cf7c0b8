"""Curator's recipes: the methods of the classes in `java`, which a program runs at the server under test, with clients
that stay where they are (`_fixed`), and with clients that follow the ensemble's configuration (`_tracked`)."""
import pathlib
import re
import subprocess

import defaults
from lab import BRIEF, JAVA, Failed, until
from libraries import Shell

SOURCES = pathlib.Path(__file__).resolve().parent / "java"
RECIPE = re.compile(r"^    /\*\* (.*?) \*/\s+static void (\w+)\(Bench bench\)", re.M | re.S)
JAR = JAVA / "curator-recipes.jar"
# The time that a recipe has is the program's own; this is for the program.
SECONDS = 150


def compiled(folder):
    """Compiles the recipes, and returns the class path."""
    words = ["javac", "-J-XX:TieredStopAtLevel=1", "-nowarn", "-d", folder, "-cp", JAR, *sorted(SOURCES.glob("*.java"))]
    done = subprocess.run([str(it) for it in words], stdout=subprocess.PIPE, stderr=subprocess.STDOUT)
    if done.returncode:
        raise Failed(done.stdout.decode(errors="replace"))
    return f"{folder}:{JAR}:{JAVA / 'slf4j-simple.jar'}"


class Recipes(Shell):
    """The program that runs recipes, one after the other."""

    def __init__(self, path, server, leader, folder):
        words = ["java", *BRIEF, "-Xmx256m", "-cp", path, "Main", f"127.0.0.1:{server}", f"127.0.0.1:{leader}"]
        super().__init__(words, folder, "recipes")
        self.number = 0

    def does(self, recipe, is_tracked):
        """Runs a recipe; raises Failed with what went wrong."""
        self.number += 1
        self.say(f"{self.number} {recipe} {str(is_tracked).lower()}")
        answer = re.compile(rf"^{self.number} (.*)$", re.M)
        found = until(f"{recipe} is answered", lambda: answer.search(self.output()), SECONDS)
        if found[1] != "ok":
            raise Failed(found[1])


class Bench(defaults.Bench):
    """The ensemble, and the program with the recipes, which is started at the first of them."""

    def __init__(self, program, folder):
        super().__init__(program, folder)
        self.recipes = None

    def does(self, recipe, is_tracked):
        self.begin()
        if self.recipes is None:
            path = compiled(self.folder / "classes")
            self.recipes = Recipes(path, self.observer.client, self.leader.client, self.folder)
        self.recipes.does(recipe, is_tracked)

    def stop(self):
        if self.recipes:
            self.recipes.__exit__()
        super().stop()


def check_of(group, name, text, is_tracked):
    def check(bench):
        bench.does(f"{group}.{name}", is_tracked)

    check.__name__ = f"{group.lower()}_{name}_{'tracked' if is_tracked else 'fixed'}"
    check.__doc__ = text.replace("\n     *", "")
    return check


def checks_of(groups):
    """Returns a check for each recipe of these classes, by clients of both kinds."""
    recipes = [(it, *found) for it in groups for found in RECIPE.findall((SOURCES / f"{it}.java").read_text())]
    return [check_of(group, name, text, it) for it in (False, True) for group, text, name in recipes]


CHECKS = checks_of(("Locks", "Leaders", "Caches", "Atomics", "Queues", "Shared", "Nodes", "Watches"))
