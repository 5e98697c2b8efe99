"""A picture of measured clock times: a row for each case, a dot for each program, on a logarithmic scale of ratios."""
from math import ceil, floor, log2

COLOURS = {
    "cbgrid's ranks": "#56b4e9",
    "plain C++": "#555555",
    "GraphBLAS": "#0072b2",
    "Eigen": "#009e73",
    "Boost Graph": "#cc79a7",
    "scipy": "#e69f00",
    "CombBLAS": "#d55e00",
}
LEFT, WIDTH, ROW, HEAD = 210, 520, 24, 66


def text(x, y, words, **more):
    given = "".join(f' {name.replace("_", "-")}="{value}"' for name, value in more.items())
    return f'<text x="{x:.1f}" y="{y:.1f}"{given}>{words}</text>'


def panel(results, titles, title, top, low, high):
    """The rows of one number of threads, from a height on."""

    def place(ratio):
        return LEFT + WIDTH * (min(max(log2(ratio), low), high) - low) / (high - low)

    bottom = top + HEAD + ROW * len(results)
    parts = [text(12, top + 22, title, font_weight="bold", font_size=14)]
    for power in range(low, high + 1):
        x = place(2**power)
        strong = power == 0
        stroke, width = ("#000000", 1.5) if strong else ("#dddddd", 1)
        label = "1 (cbgrid)" if strong else f"{2**power:g}"
        parts.append(f'<line x1="{x:.1f}" y1="{top + HEAD - 8}" x2="{x:.1f}" y2="{bottom}" stroke="{stroke}" stroke-width="{width}"/>')
        parts.append(text(x, top + HEAD - 14, label, text_anchor="middle", fill="#444444"))
    for k, (case, row) in enumerate(results.items()):
        y = top + HEAD + ROW * k + ROW / 2
        parts.append(text(LEFT - 14, y + 4, titles[case], text_anchor="end"))
        for name, colour in COLOURS.items():
            if name in row:
                ratio = row[name]["clock"] / row["cbgrid"]["clock"]
                said = f"{name}, {titles[case]}: {ratio:.2f}"
                parts.append(f'<circle cx="{place(ratio):.1f}" cy="{y:.1f}" r="5.5" fill="{colour}" fill-opacity="0.85"><title>{said}</title></circle>')
    return parts, bottom + 14


def drawn(told, titles):
    """The whole picture, as SVG."""
    ratios = [
        row[name]["clock"] / row["cbgrid"]["clock"]
        for results in told["threads"].values()
        for row in results.values()
        for name in COLOURS
        if name in row
    ]
    low, high = min(-1, floor(log2(min(ratios, default=1)))), max(2, ceil(log2(max(ratios, default=1))))
    parts, y = [], 44
    for threads, results in told["threads"].items():
        many = "One thread" if int(threads) == 1 else f"{threads} threads"
        more, y = panel(results, titles, f"{many}: clock time over cbgrid's (right of 1: cbgrid is faster)", y, low, high)
        parts += more
    x = 12
    for name, colour in COLOURS.items():
        if name in told["peers"]:
            parts += [f'<circle cx="{x + 6}" cy="22" r="5.5" fill="{colour}"/>', text(x + 17, 26, name)]
            x += 34 + 7.2 * len(name)
    size = f'width="{LEFT + WIDTH + 40}" height="{y:.0f}"'
    head = f'<svg xmlns="http://www.w3.org/2000/svg" {size} font-family="sans-serif" font-size="12">'
    return "\n".join([head, '<rect width="100%" height="100%" fill="#ffffff"/>', *parts, "</svg>"]) + "\n"
