"""The custody page of one loan, as the second machine writes it: what was lent, who has it now, what is due home, and places to sign."""

from .report import COLUMNS, ENDING, KINDS, WORDS, Page, amounts, escaped, heads, label, moment, short, table, top
from .world import held, sums_of

SECTIONS = [("verdict", "Verdict"), ("lent", "What was lent"), ("ledger", "Its receipts"), ("due", "Due home"), ("account", "Account"), ("sign", "Signatures"), ("map", "Map"), ("check", "How to check")]
GONE = '<span class="q">deleted</span>'
ENDED = '<span class="q">ended</span>'
NEW = '<span class="q">new</span>'


class LoanPage(Page):
    def __init__(self, world, names, json_of, uuid):
        super().__init__(world, names, json_of)
        self.loan = world.packages[uuid]
        self.made = world.receipts[self.loan.loan - 1]

    def held(self, kind):
        """On the map stands what this loan holds."""
        return [each for each in super().held(kind) if each[0] == self.loan.uuid]

    # ---- pieces

    def keeper(self, uuid):
        style = self.colour(uuid) if uuid in self.world.packages else "g"
        return f'<span class="h {style}">{self.name(uuid)}</span>'

    def whole_name(self, uuid):
        called = label(self.names[uuid]) + " " if uuid in self.names else ""
        return f"{called}<code>{uuid}</code>"

    def told(self, identity):
        """An item in a few words where a package holds it, and its identity else."""
        item = self.item(identity)
        return short(identity) if item is None else self.about(identity, item)

    def told_pair(self, m):
        return f"{self.told(m.base)} &harr; {self.told(m.other)}"

    def now_with(self, m):
        for package in self.packages:
            if m.other and any(link[1:] == (m.base, m.other) for link in package.links):
                return self.keeper(package.uuid)
            if not m.other and m.base in package.items:
                return self.keeper(package.uuid)
        return ENDED if m.other else GONE

    def own_loans(self):
        return "".join(f'<span class="a">{self.keeper(p.uuid)}</span>' for p in self.packages if p.parent == self.loan.uuid)

    # ---- sections

    def verdict(self):
        own = self.own_loans()
        return ('<section class="verdict" id="verdict" aria-labelledby="hv">\n<h2 id="hv">&#10003; On loan, and in order</h2>\n'
                "<p>The folder was opened and found in order. Moments are in UTC; after the dot stands the number of the receipt.</p>\n"
                f'<ul class="facts">\n<li class="big"><b>Loan</b> {self.whole_name(self.loan.uuid)}</li>\n<li class="big"><b>Lender</b> {self.whole_name(self.loan.parent)}</li>\n'
                f'<li><b>Lent</b> {self.when(self.loan.loan)}</li>\n<li><b>Last change</b> {self.when(self.world.tickets[self.loan.uuid])}</li>\n'
                f'<li><b>Went out</b> {amounts(self.made.sums())}</li>\n<li><b>Due home</b> {amounts(sums_of(held(self.loan)))}</li>\n'
                + (f"<li><b>Comes home after its own loans</b> {own}</li>\n" if own else "")
                + f'<li class="big"><b>Request</b> <code class="line">{escaped(self.made.line)}</code></li>\n'
                f'<li class="big"><b>SHA-256 of the ledger</b> <code class="sha">{self.digest()}</code></li>\n</ul>\n</section>\n')

    def lent_row(self, m):
        word = WORDS[m.kind - 1]
        keeper = f'<td data-l="now with">{self.now_with(m)}</td></tr>\n'
        if m.other:
            return f'<tr><th scope="row">{word}</th><td colspan="3">{self.told_pair(m)}</td>{keeper}'
        item = self.item(m.base)
        about = "" if item is None else " " + self.about(m.base, item)
        return f'<tr><th scope="row">{word}{about}</th><td>{short(m.base)}</td><td class="n" data-l="bytes">{m.size}</td><td>{short(m.fingerprint)}</td>{keeper}'

    def lent(self):
        return ('<section id="lent" aria-labelledby="hw">\n<h2 id="hw">What was lent</h2>\n'
                "<p>All that went out when the loan was made, and who has each thing now.</p>\n"
                + table("cards hold", "", heads(["what", "identity", "bytes", "SHA-256", "now with"], ["bytes"]), "".join(map(self.lent_row, self.made.moved))) + "</section>\n")

    def told_what(self, r):
        if len(r.moved) != 1:
            return amounts(r.sums())
        m = r.moved[0]
        return self.told_pair(m) if m.other else self.told(m.base)

    def loan_receipt_row(self, r):
        gone = '<span class="q">gone</span>'
        source, target = self.keeper(r.source) if r.source else NEW, self.keeper(r.target) if r.target else gone
        return (f'<tr id="r{r.seq}"><th scope="row" class="n">{r.seq}</th><td class="t">{moment(r.at)}</td><td class="v">{escaped(r.line.split(" ")[0])}</td>'
                f'<td class="w">{self.told_what(r)}</td><td>{source} &rarr; {target}</td>'
                f'<td class="n" data-l="bytes">{r.sums()[4]}</td><td data-l="request">{short(r.request)}</td></tr>\n')

    def receipts(self):
        rows = "".join(self.loan_receipt_row(r) for r in self.world.receipts if self.loan.uuid in (r.source, r.target))
        head = heads(["receipt", "moment (UTC)", "done", "what", "from &rarr; to", "bytes", "request"], ["receipt", "bytes"])
        return ('<section id="ledger" aria-labelledby="hl">\n<h2 id="hl">Its receipts</h2>\n<p>Each receipt that names this loan; the first of them made it.</p>\n'
                + table("led cards", "", head, rows) + "</section>\n")

    def due(self):
        links = sorted(self.loan.links, key=lambda link: (KINDS.index(link[0]), *link[1:]))
        rows = "".join(self.item_row(each, self.loan.items[each]) for each in self.items(self.loan)) + "".join(self.link_row(*link) for link in links)
        return ('<section id="due" aria-labelledby="hd">\n<h2 id="hd">Due home</h2>\n<p>What the loan holds now. A return brings home this.</p>\n'
                + table("cards hold", "", heads(["what", "identity", "bytes", "SHA-256"], ["bytes"]), rows) + "</section>\n")

    def account(self):
        return ('<section id="account" aria-labelledby="ha">\n<h2 id="ha">Account</h2>\n<p>What came in, less what went out, is what is held.</p>\n'
                '<table class="acc">\n<caption>Sums of the receipts, and what the loan holds.</caption>\n'
                f'<thead><tr>{heads(["package", *COLUMNS], COLUMNS)}</tr></thead>\n{self.account_of(self.loan)}</table>\n</section>\n{SIGNATURES}')

    def legend(self):
        return self.legend_row(self.loan)

    def text(self):
        name = self.plain_name(self.loan.uuid)
        return (top(f"Custody of {name}", "Custody of a loan", name, f"Archive <code>{self.world.archive}</code>, as of receipt {len(self.world.receipts)}.", SECTIONS)
                + f"{self.patterns()}{self.verdict()}{self.lent()}{self.receipts()}{self.due()}{self.account()}{self.map()}{CHECK}")


SIGNATURES = """<section id="sign" aria-labelledby="hs">
<h2 id="hs">Signatures</h2>
<p>Both have seen these lists, and mean the ledger whose SHA-256 stands above.</p>
<div class="sign">
<div>for the lender: name, signature</div>
<div>for the borrower: name, signature</div>
<div>place</div>
<div>date</div>
</div>
</section>
"""

CHECK = """<section id="check" aria-labelledby="hc">
<h2 id="hc">How to check this page</h2>
<p>None of these asks you to believe the page.</p>
<ol class="how">
<li><code>sheetdesk audit FOLDER</code> opens the folder anew and prints <code>good</code> with the number of receipts.</li>
<li><code>sheetdesk report FOLDER LOAN | cmp - loan.html</code> prints nothing: the page has no date of its own, and comes out the same each time.</li>
<li>By telephone: the other office reads out its SHA-256 of the ledger. It is the same where both mean the same receipts.</li>
<li><code>sheetdesk explain FOLDER IDENTITY</code> tells the way of one item, from receipt to receipt.</li>
""" + ENDING


def loan_page_of(world, names, json_of, uuid):
    """The custody page of a loan that lives."""
    return LoanPage(world, names, json_of, uuid).text()
