"""The look of the shop's page."""

import html
import time
from typing import List

from shop import PARTS, PRODUCTS, Shown

STYLE = """
body { font: 15px/1.4 system-ui, sans-serif; margin: 1.2em auto; max-width: 60em; color: #222 }
main { display: flex; gap: 1.2em } section { flex: 1; border: 2px solid #bbb; border-radius: 8px; padding: .4em 1em 1em }
section.torn { border-color: #c22; background: #fff4f4 } section.whole { border-color: #2a7; background: #f4fffa }
h1 { font-size: 1.3em; margin: 0 } h2 { font-size: 1.1em; margin: .4em 0 } table { border-collapse: collapse; width: 100% }
td, th { text-align: right; padding: .15em .4em; border-bottom: 1px solid #ddd } td:first-child, th:first-child { text-align: left }
.hit { color: #167 } .computed { color: #a50; font-weight: bold } p { margin: .4em 0 } .verdict { font-weight: bold; min-height: 5.6em }
.torn .verdict { color: #c22 } .whole .verdict { color: #175 } form { display: inline } small { color: #666 }
"""


def cell(shown: Shown, at: int, text: str) -> str:
    return f'<td class="{"hit" if shown.hits[at] else "computed"}">{text}</td>'


def table(shown: Shown) -> str:
    """The parts of a page, each in the colour of a hit or of what was computed for it."""
    at = {(part.__name__, *args): number for number, (part, args) in enumerate(PARTS)}
    rows = []
    for product, (name, price) in PRODUCTS.items():
        left, sold = at["stock", product], at["orders", product]
        them = shown.values[sold]
        rows.append(f"<tr><td>{html.escape(name)}, {price}</td>{cell(shown, left, str(shown.values[left]))}{cell(shown, sold, str(sum(it[1] for it in them)))}"
                    f"{cell(shown, sold, str(sum(it[2] for it in them)))}</tr>")
    last = at["till",]
    rows.append(f"<tr><td>The till</td><td></td><td></td>{cell(shown, last, str(shown.values[last]))}</tr>")
    return f"<table><tr><th>Product, price</th><th>In stock</th><th>Sold</th><th>Paid</th></tr>{''.join(rows)}</table>"


def half(name: str, title: str, shown: Shown, pages: int, torn: int) -> str:
    faults = shown.faults()
    verdict = "<br>".join(map(html.escape, faults[:4])) if faults else "Stock, orders and the till agree."
    when = "of no moment that it knows"
    if shown.moment is not None:
        when = f"all of {time.strftime('%H:%M:%S', time.localtime(shown.moment))}.{int(shown.moment % 1 * 1000):03}, {shown.age:.2f} s ago"
    return (f'<section id="{name}" class="{"torn" if faults else "whole"}"><h2>{title}</h2><p><small>{when}; {sum(shown.hits)} hits of {len(shown.hits)} parts</small></p>'
            f'{table(shown)}<p class="verdict">{"TORN: " if faults else ""}{verdict}</p><p>{torn} of {pages} pages torn</p></section>')


def page(halves: List[str], customers: int) -> str:
    buys = "".join(f'<form method="post" action="/buy/{product}"><button>Buy a {html.escape(name.lower())}</button></form> ' for product, (name, _) in PRODUCTS.items())
    return (f'<!doctype html><html lang="en"><meta charset="utf-8"><meta http-equiv="refresh" content="1"><title>Two shops</title><style>{STYLE}</style>'
            f"<h1>One shop, two caches, {customers} customers who buy and return things</h1><p>{buys}</p><main>{''.join(halves)}</main>"
            '<p><small><span class="hit">blue</span>: from the cache; <span class="computed">orange</span>: computed for this page. '
            "Both caches may show what is two seconds old.</small></p></html>")
