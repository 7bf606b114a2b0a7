"""docs/play.html: the playground as one page, of the parts in docs/playing and the rules in python/fdbrec/exploring."""
from making.sources import read

RULES = ("values", "rules", "recoverer")
PARTS = ("world", "choices", "facts", "tale", "scenes", "bands", "board", "motion", "panel", "page", "doing")
MADE = "<!-- docs/tables makes this page of docs/playing and python/fdbrec/exploring: change those. -->\n"


def play():
    """The page."""
    scripts = [read(f"python/fdbrec/exploring/{it}.js") for it in RULES]
    scripts += [read(f"docs/playing/{it}.js") for it in PARTS]
    page = read("docs/playing/page.html").replace("@STYLE@", read("docs/playing/style.css").rstrip("\n"))
    page = page.replace("@SCRIPTS@", "\n".join(scripts).replace("</", "<\\/").rstrip("\n"))
    return page.replace("<html", MADE + "<html", 1)
