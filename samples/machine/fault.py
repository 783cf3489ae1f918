"""The page of a folder that does not open, as the second machine writes it: the fault, what it names, what to do, and what was asked before it."""

from .report import escaped, top

SECTIONS = [("verdict", "Verdict"), ("do", "What to do"), ("faults", "What was asked")]

# Each fault, what it says, and what to do.
FAULTS = [
    ("NoArchive", "No file says that it is the archive's.", "The archive's file is gone, empty or renamed: put it back under its UUID, or restore the folder."),
    ("TwoArchives", "Two files say that they are the archive's.", "One is a copy, or another register's archive: move the one that does not belong out of the folder."),
    ("NotAPackage", "A live package lacks a table of its form, or has a value out of its range.", "Its file is damaged, or another program has written to it: restore the folder."),
    ("TwoCopies", "Two files are the same loan.", "Move the older copy out of the folder."),
    ("MissingPackage", "A loan is out and its file is not there.", "Put the file back, or restore the folder."),
    ("ForeignFrame", "A loan has another frame than the archive, or does not fit its lender.", "The file belongs to another register: restore the folder."),
    ("Dangling", "A row has no identity, or a link has no row.", "Another program has written to the file: restore the folder."),
    ("OutOfAccount", "The receipts do not add up to what the packages hold.", "Often the files are of two days: restore the whole folder of one day."),
    ("Altered", "An item is not what its receipt says: its bytes were changed.", "Keep the file as evidence, and restore the folder."),
]


def fault_row(number, found):
    name, meaning, _ = FAULTS[number]
    row, state = ("", '<td class="yes">&#10003; not so</td>') if number < found else (' class="hit"', '<td class="no">&#10007; found</td>') if number == found else ("", '<td class="q">not asked</td>')
    return f'<tr{row}><th scope="row">{name}</th><td>{meaning}</td>{state}</tr>\n'


def fault_page_of(name, known):
    """The page of a fault, and of what is known of it beside its name."""
    found = next(number for number, fault in enumerate(FAULTS) if fault[0] == name)
    return (top("Register not in order", "Register of lent map sheets", "Register not in order", "A page tells who holds what only of a folder that is in order. This one is not.", SECTIONS)
            + f'<section class="verdict bad" id="verdict" aria-labelledby="hv">\n<h2 id="hv">&#10007; Not in order: {name}</h2>\n'
            f'<p>{FAULTS[found][1]}</p>\n<ul class="facts">\n<li class="big"><b>Where</b> {escaped(known)}</li>\n</ul>\n</section>\n'
            '<section id="do" aria-labelledby="ho">\n<h2 id="ho">What to do</h2>\n<ol class="how">\n'
            "<li>Send no request: none is taken while the fault holds. No file was changed.</li>\n<li>Copy the whole folder aside, as it is.</li>\n"
            f"<li>{FAULTS[found][2]}</li>\n<li><code>sheetdesk audit FOLDER</code> says whether the fault is gone, or which is next.</li>\n</ol>\n</section>\n"
            '<section id="faults" aria-labelledby="hf">\n<h2 id="hf">What was asked</h2>\n'
            "<p>The nine faults, in the order in which they are asked for. Those before the one that was found do not hold; those behind it were not asked for.</p>\n"
            '<table class="cards">\n<thead><tr><th scope="col">fault</th><th scope="col">what it says</th><th scope="col">here</th></tr></thead>\n<tbody>\n'
            f'{"".join(fault_row(number, found) for number in range(len(FAULTS)))}</tbody>\n</table>\n</section>\n'
            "</main>\n<footer>\n<p>Made by <code>sheetdesk report</code>. Nothing was changed.</p>\n</footer>\n</body>\n</html>\n")
