"""The table of the commands tells what the program's sources and FORMATS tell."""
from __future__ import annotations

import re
import unittest

from vidlakost_tools.program import ROOT, command_table, commands
from vidlakost_tools.text import read_text

SOURCES = ROOT / "crates" / "bist_app"


class Table(unittest.TestCase):
    def test_it_has_the_forms_of_the_code(self) -> None:
        """The code knows of each command its name, how many words there are, and which of them name files."""
        text = read_text(SOURCES / "src" / "commands.rt")
        coded = [tuple(found) for found in re.findall(r'has_form\(words, "(\w+)", (\d+), (\d+), (\d+)\)', text)]
        told = []
        for command in command_table():
            first, last = command.files[0], command.files[-1] + 1
            self.assertEqual(command.files, list(range(first, last)))
            told.append((command.name, *map(str, (len(command.form), first, last))))
        self.assertEqual(sorted(coded), sorted(told))

    def test_it_has_the_forms_of_the_definitions(self) -> None:
        pattern = r'name = codes "(\w+)"; count = (\d+); first = (\d+); last = (\d+)'
        defined = [
            tuple(found)
            for path in (SOURCES / "specs").glob("*.antt")
            for found in re.findall(pattern, read_text(path))
        ]
        told = [
            (command.name, *map(str, (len(command.form), command.files[0], command.files[-1] + 1)))
            for command in command_table()
        ]
        self.assertEqual(sorted(defined), sorted(told))

    def test_it_writes_the_words_that_the_definitions_write(self) -> None:
        """A definition names the place of each file that is left."""
        for command in command_table():
            pages = [read_text(path) for path in (SOURCES / "specs").glob("*.antt")]
            page = next(page for page in pages if f'name = codes "{command.name}"; count' in page)
            places = {int(place) for place in re.findall(r"position = (\d+)", page)}
            self.assertEqual(places, set(command.written), command.name)

    def test_formats_has_a_section_for_each(self) -> None:
        page = read_text(ROOT / "docs" / "FORMATS.md")
        forms = re.findall(r"^## The command `(\w+)`\n\n```\n([^\n]*)\n", page, re.MULTILINE)
        told = [(command.name, " ".join(command.form)) for command in command_table()]
        self.assertEqual(forms, told)
        for command in commands():
            self.assertTrue(command.example.startswith(command.name), command.name)
            self.assertTrue(command.does and command.purpose)


if __name__ == "__main__":
    unittest.main()
