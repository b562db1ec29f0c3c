"""Writes a document for examples/article.dtd. Words: KIND BYTES.

KIND is `nodes` (sections, paragraphs and inline elements, many small nodes), `texts` (paragraphs of a few thousand bytes of text), `wide` (one
section whose list has a paragraph for each hundred bytes), `children` (one section whose list has an empty paragraph for each four bytes),
`deep` (paragraphs of inline elements, one in another, 512 elements deep) or `marked` (as `nodes`, with attributes, references, comments,
CDATA sections and letters beyond ASCII; ATTRIBUTES declares the attributes). It has at least so many bytes.
"""
import random
import sys

WORDS = ("the of and to in a is that it was for on are as with his they at be this from have or by one had not but "
         "what all were when we there can an your which their said if do will each about how up out them then").split()


def words(count):
    return " ".join(random.choice(WORDS) for _ in range(count))


def paragraph():
    return f"<p>{words(12)} <em>{words(3)}</em> {words(15)}<br/>{words(9)}</p>\n"


def items():
    return "<list>" + "".join(f"<item><p>{words(8)}</p></item>" for _ in range(3)) + "</list>\n"


def section():
    blocks = (items() if random.random() < 0.15 else paragraph() for _ in range(random.randint(2, 6)))
    return f"<sec><title>{words(4)}</title>\n" + "".join(blocks) + "</sec>\n"


# A section of long paragraphs. They share a few texts, which are slow to make.
LONG = [words(900) for _ in range(20)]


def long_section():
    return "<sec>" + "".join(f"<p>{random.choice(LONG)}</p>\n" for _ in range(4)) + "</sec>\n"


def wide_paragraph():
    return f"<p>{random.choice(LONG)[:90]}</p>\n"


def empty_paragraphs():
    return "<p/>" * 1000


# Three elements stand around those of a paragraph.
def deep_paragraph():
    return "<p>" + "<em>" * 509 + "</em>" * 509 + "</p>\n"


ATTRIBUTES = "<!ATTLIST p id CDATA #IMPLIED class CDATA #IMPLIED>\n<!ATTLIST em n CDATA #IMPLIED>\n"


def marked_paragraph():
    number = random.randrange(100_000)
    other = random.choice(["<!-- " + words(4) + " -->", "<![CDATA[<" + words(2) + ">]]>", "<?mark " + words(1) + "?>", "&#233;t\u00e9 &amp; caf\u00e9"])
    return f"<p id=\"p{number}\" class='note'>{words(9)} <em n = \"a &lt; b\">{words(3)}</em> {words(8)} &gt; {other} {words(9)}<br/></p>\n"


def marked_section():
    blocks = (marked_paragraph() for _ in range(random.randint(2, 6)))
    return f"<sec><title>{words(4)}</title>\n" + "".join(blocks) + "</sec>\n"


def fill(out, left, make):
    while left > 0:
        left -= out.write(make())


def main():
    random.seed(1)
    kind, left, out = sys.argv[1], int(sys.argv[2]), sys.stdout
    out.write(f"<doc><head>{words(5)}</head>\n")
    one_list = {"wide": wide_paragraph, "children": empty_paragraphs, "deep": deep_paragraph}
    if kind in one_list:
        out.write("<sec>")
        fill(out, left, one_list[kind])
        out.write("</sec>")
    else:
        fill(out, left, {"nodes": section, "texts": long_section, "marked": marked_section}[kind])
    out.write("</doc>\n")


if __name__ == "__main__":
    main()
