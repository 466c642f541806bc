"""A picture of boxes, lines and texts, written as SVG."""

from html import escape

INK = "#1f2933"
FAINT = "#8794a1"
PAPER = "#ffffff"
FONT = "font-family='DejaVu Sans, Verdana, sans-serif'"
FIXED = "font-family='DejaVu Sans Mono, Menlo, monospace'"


class Picture:
    def __init__(self, width, height, title):
        self.width, self.height, self.title = width, height, title
        self.parts = []

    def box(self, x, y, width, height, fill, stroke=FAINT, radius=4):
        self.parts.append(
            f"<rect x='{x:.1f}' y='{y:.1f}' width='{width:.1f}' height='{height:.1f}' rx='{radius}' "
            f"fill='{fill}' stroke='{stroke}'/>"
        )

    def text(self, x, y, words, size=12, anchor="start", fixed=False, fill=INK, bold=False):
        weight = " font-weight='bold'" if bold else ""
        self.parts.append(
            f"<text x='{x:.1f}' y='{y:.1f}' font-size='{size}' text-anchor='{anchor}' fill='{fill}'{weight} "
            f"{FIXED if fixed else FONT} xml:space='preserve'>{escape(words)}</text>"
        )

    def line(self, points, stroke=FAINT, width=1.2, arrow=False, dashed=False):
        path = " ".join(f"{x:.1f},{y:.1f}" for x, y in points)
        end = " marker-end='url(#arrow)'" if arrow else ""
        dash = " stroke-dasharray='4 3'" if dashed else ""
        self.parts.append(
            f"<polyline points='{path}' fill='none' stroke='{stroke}' stroke-width='{width}'{dash}{end}/>"
        )

    def dot(self, x, y, fill, radius=3):
        self.parts.append(f"<circle cx='{x:.1f}' cy='{y:.1f}' r='{radius}' fill='{fill}'/>")

    def save(self, path):
        head = (
            f"<svg xmlns='http://www.w3.org/2000/svg' viewBox='0 0 {self.width} {self.height}' "
            f"width='{self.width}' height='{self.height}' role='img'>\n<title>{escape(self.title)}</title>\n"
            "<defs><marker id='arrow' viewBox='0 0 8 8' refX='7' refY='4' markerWidth='7' markerHeight='7' orient='auto'>"
            f"<path d='M0,0 L8,4 L0,8 z' fill='{FAINT}'/></marker></defs>\n"
            f"<rect width='100%' height='100%' fill='{PAPER}'/>\n"
        )
        path.write_text(head + "\n".join(self.parts) + "\n</svg>\n", encoding="utf-8")
