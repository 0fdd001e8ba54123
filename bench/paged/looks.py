"""Pictures of the page, to be looked at; those without a width in their names are the small ones of docs/pictures."""

from pathlib import Path

from .person import FURTHER, QUESTIONS, Person


def points(kind, folder):
    Path(folder).mkdir(parents=True, exist_ok=True)
    person = Person(kind)
    try:
        for width in (1280, 768, 375):
            for dark in (False, True):
                person.browser.look(width, dark)
                for name in (*QUESTIONS, *FURTHER):
                    person.choose(name)
                    person.browser.shot(Path(folder, f"{name}-{width}-{'dark' if dark else 'light'}.png"))
        small(person, folder)
    finally:
        person.browser.close()
    print(f"the pictures are in {folder}")


def small(person, folder):
    person.browser.look(1280, False)
    for name, height in (("blocked", 920), ("weaker", 1260)):
        person.choose(name)
        person.browser.shot(Path(folder, f"{name}.png"), height, 0.6)
