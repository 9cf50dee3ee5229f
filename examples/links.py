"""Checks that each link of the pages leads somewhere: python3 examples/links.py PAGE ..

A link is one to a file of the repository, with or without a heading of it behind `#`. It prints the
links that lead nowhere, and ends with 1 where there are some."""
import os
import re
import sys

CODE = re.compile(r'`[^`]*`')
LINK = re.compile(r'\]\(([^()\s]+)\)')


def anchor(heading):
    """The name by which a page can be entered at this heading."""
    plain = re.sub(r'\[([^]]*)\]\([^)]*\)', r'\1', heading)
    return re.sub(r'[^\w\- ]', '', plain.lower()).strip().replace(' ', '-')


def lines_of(page):
    """The lines of a page that aren't those of a block of code."""
    inside = False
    with open(page, encoding='utf-8') as text:
        for line in text:
            if line.startswith('```'):
                inside = not inside
            elif not inside:
                yield line.rstrip('\n')


def anchors(page):
    return {anchor(line.lstrip('#')) for line in lines_of(page) if line.startswith('#')}


def leads_nowhere(page, target):
    """Whether the link leads nowhere. What stands on the web isn't looked at."""
    if re.match(r'[a-z]+:', target):
        return False
    name, _, heading = target.partition('#')
    path = os.path.normpath(os.path.join(os.path.dirname(page), name)) if name else page
    if not os.path.exists(path):
        return True
    return bool(heading) and heading not in anchors(path)


def main(pages):
    bad = [(page, target) for page in pages for line in lines_of(page)
           for target in LINK.findall(CODE.sub('', line)) if leads_nowhere(page, target)]
    for page, target in bad:
        print(f'{page}: ({target}) leads nowhere')
    return 1 if bad else 0


if __name__ == '__main__':
    sys.exit(main(sys.argv[1:]))
