"""Where the examples stand, for the scripts that run them: programs in one folder, sessions in another."""
import glob
import os

FOLDER = os.path.normpath(os.path.join(os.path.dirname(os.path.abspath(__file__)), "../../examples"))
PROGRAMS, SESSIONS, PAGES = (os.path.join(FOLDER, name) for name in ("programs", "sessions", "pages"))


def program_path(name):
    """The path of a program, of a file that belongs to it, or of one that isn't there."""
    return os.path.join(PROGRAMS, name)


def page_frame(title):
    """What stands in front of the sections of a page with a title, and what behind them."""
    with open(os.path.join(PAGES, "sum.html"), "rb") as file:
        page = file.read()
    front = page[: page.index(b"<section")].replace(b"<title>SUM</title>", b"<title>%s</title>" % title.encode())
    return front, page[page.rindex(b"</section>") + len(b"</section>") :]


def session_path(name):
    """The path of a file beside the sessions."""
    return os.path.join(SESSIONS, name)


def names_in(folder, ending):
    """The names of the files of a kind, without their ending, in their order."""
    return sorted(os.path.basename(path).removesuffix(ending) for path in glob.glob(os.path.join(folder, "*" + ending)))


def program_names():
    return names_in(PROGRAMS, ".cps")


def session_names():
    return names_in(SESSIONS, ".session")
