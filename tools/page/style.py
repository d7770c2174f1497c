"""Colours and letters of the picture's own parts: the desk, the sheet's edge, rulers, caption, strip."""
from page.faces import MONO, SANS

RULES = """
.desk { fill: #efece6 }
.shadow { fill: #cfc9be }
.sheet { fill: #ffffff; stroke: #a8a196; stroke-width: 10 }
.tick { stroke: #b4ada1; stroke-width: 9 }
.inch { font: 130px SANS; fill: #928b7f; text-anchor: middle }
.corner { fill: none; stroke: #a9c7e4; stroke-width: 12 }
.margin { stroke: #a9c7e4; stroke-width: 9; stroke-dasharray: 60 60 }
.end { fill: #2a9d8f; fill-opacity: 0.85 }
.bare { fill: none; stroke: #b3261e; stroke-width: 10; stroke-dasharray: 40 30 }
.box { fill: #fff8e6; stroke: #b98b2f; stroke-width: 7 }
.code { font: 76px MONO; fill: #8a6414; text-anchor: middle }
.name { font: bold 250px SANS; fill: #33302b }
.facts { font: 200px SANS; fill: #5d574e }
.warning { font: 200px SANS; fill: #b3261e }
.fine { font: 160px SANS; fill: #7d766a }
.empty { font: 260px SANS; fill: #9d968a; text-anchor: middle; paint-order: stroke; stroke: #ffffff; stroke-width: 90 }
.strip { fill: #fdf4f3; stroke: #e3b5b1; stroke-width: 10 }
.spine { fill: #b3261e }
.refusal { font: bold 250px SANS; fill: #b3261e }
.offset { font: 170px MONO; fill: #8a8377; text-anchor: end }
.byte { font: 220px MONO; fill: #33302b; text-anchor: middle }
.hint { font: 160px MONO; fill: #9a9388; text-anchor: middle }
.element { fill: #f7d3cf }
.mark { fill: #b3261e }
.marked { font: bold 220px MONO; fill: #ffffff; text-anchor: middle }
.fault { font: bold 160px MONO; fill: #b3261e; text-anchor: middle }
""".strip()


def style(faces):
    """The rules above, and one for each font that the sheet has."""
    fixed = RULES.replace('SANS', SANS).replace('MONO', MONO)
    fonts = [f'.f{font} {{ font: {size}px {family} }}' for font, (family, size) in sorted(faces.items())]
    return '\n'.join([fixed, *fonts])
