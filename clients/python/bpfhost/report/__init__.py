"""A report on a program as one page of HTML: the verdict, its lines with what is known, its graph, and what a capture gives.

`gathering` collects what the page has, `blocks` and `folding` make the graph, `counting` counts how many packets go through each block,
`drawing` draws the graph, and `page` writes the page.
"""

from bpfhost.report.gathering import Gathered, Ran, gathered
from bpfhost.report.page import page

__all__ = ["Gathered", "Ran", "gathered", "page"]
