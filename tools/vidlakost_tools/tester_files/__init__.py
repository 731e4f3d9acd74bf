"""Readers of the files for the tester of a TAP, by the grammars of their standards as far as the files use them: BSDL,
ICL, PDL, STIL and WGL. They share nothing with the writers of these files, so they can judge them: the scans that PDL,
ICL and BSDL ask for together, and the cycles of TCK in a run."""
