"""Plug-in of GNAT Studio for spark: the menu Build has "spark: check the program".

It checks the sources of the loaded project, and lists reports and refusals in the view Locations.
"""
import re

import GPS
from gps_utils import interactive

CATEGORY = "spark"
LINE = re.compile(r"^(.+):([1-9][0-9]*):([1-9][0-9]*): ([A-Z][0-9]+ (?!(?:checked|excused)$).+)$", re.M)


def show(process, status, output):
    """Lists the reports and refusals of a check, and shows all its lines."""
    for file, line, column, message in LINE.findall(output):
        GPS.Locations.add(CATEGORY, GPS.File(file), int(line), int(column), message)
    GPS.Console("Messages").write(output)


@interactive(category="Build", menu="/Build/spark: check the program", name="spark: check the program")
def check():
    """Checks the sources of the project and of the projects that it uses."""
    files = [file.path for file in GPS.Project.root().sources(recursive=True)]
    files = [file for file in files if file.endswith((".ads", ".adb"))]
    GPS.Locations.remove_category(CATEGORY)
    GPS.Process(["spark-show", "--order"] + files, on_exit=show)
