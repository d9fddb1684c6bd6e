"""Plain SVG, written as text: boxes, words, arrows. All drawings of docs/ are made of these."""
from xml.sax.saxutils import escape

INK, SOFT, LINE, PAPER, MARK = "#1d2733", "#5a6b7b", "#8fa1b3", "#ffffff", "#b3261e"
FILLS = ["#eef3f8", "#e8f1ea", "#fbf3e2", "#f6ebf3", "#e9f0f7", "#f1efe6", "#eef0fb", "#f3eeee"]


class Drawing:
    def __init__(self, width, height, title):
        self.width, self.height, self.parts = width, height, []
        self.title = title

    def box(self, x, y, w, h, fill=PAPER, line=LINE, round_=6, tip=None, dashed=False):
        inner = f"<title>{escape(tip)}</title>" if tip else ""
        dash = ' stroke-dasharray="6 4"' if dashed else ""
        self.parts.append(f'<rect x="{x:.0f}" y="{y:.0f}" width="{w:.0f}" height="{h:.0f}" rx="{round_}" fill="{fill}" stroke="{line}"{dash}>{inner}</rect>')

    def text(self, x, y, words, size=13, bold=False, ink=INK, anchor="start", mono=False):
        weight = ' font-weight="bold"' if bold else ""
        family = ' font-family="monospace"' if mono else ""
        self.parts.append(f'<text x="{x:.0f}" y="{y:.0f}" font-size="{size}" fill="{ink}" text-anchor="{anchor}"{weight}{family}>{escape(words)}</text>')

    def arrow(self, points, ink=SOFT, dashed=False, width=1.5):
        way = " ".join(("M" if i == 0 else "L") + f"{x:.0f} {y:.0f}" for i, (x, y) in enumerate(points))
        dash = ' stroke-dasharray="5 4"' if dashed else ""
        head = "mark" if ink == MARK else "head"
        self.parts.append(f'<path d="{way}" fill="none" stroke="{ink}" stroke-width="{width}"{dash} marker-end="url(#{head})"/>')

    def done(self):
        def head(name, ink):
            return f'<marker id="{name}" viewBox="0 0 10 10" refX="9" refY="5" markerWidth="7" markerHeight="7" orient="auto"><path d="M0 0L10 5L0 10z" fill="{ink}"/></marker>'
        return "\n".join([
            f'<svg xmlns="http://www.w3.org/2000/svg" width="{self.width:.0f}" height="{self.height:.0f}" viewBox="0 0 {self.width:.0f} {self.height:.0f}" font-family="Helvetica, Arial, sans-serif">',
            f"<title>{escape(self.title)}</title>",
            f'<defs>{head("head", SOFT)}{head("mark", MARK)}</defs>',
            f'<rect width="{self.width:.0f}" height="{self.height:.0f}" fill="{PAPER}"/>',
            *self.parts, "</svg>"]) + "\n"


def wide(words, size, bold=False):
    """About how wide the words are."""
    return len(words) * size * (0.64 if bold else 0.58)


def wrapped(words, width):
    """The words in lines of at most `width` characters."""
    lines, line = [], ""
    for word in words.split():
        if line and len(line) + 1 + len(word) > width:
            lines.append(line)
            line = word
        else:
            line = (line + " " + word).strip()
    return lines + [line] if line else lines
