"""Draws how deep threshold scans go, by the number of rows, as SVG. Both axes are logarithmic."""

import math

WIDTH, HEIGHT = 640, 400
LEFT, RIGHT, TOP, BOTTOM = 70, 170, 20, 50
COLOURS = ("#1b6ca8", "#3a9d5d", "#b5651d", "#1b6ca8", "#3a9d5d", "#b5651d")


def place(value, least, most, first, last):
    """Where a value stands on a logarithmic axis."""
    share = (math.log10(value) - math.log10(least)) / (math.log10(most) - math.log10(least))
    return first + share * (last - first)


def draw(lines, table, picture):
    """Writes each line's points, (rows, depth), to a table of tabs, and draws them."""
    with open(table, "w", encoding="utf-8") as file:
        file.write("rows\t" + "\t".join(name for name, _ in lines) + "\n")
        for at, (rows, _) in enumerate(lines[0][1]):
            file.write("\t".join([str(rows), *(str(points[at][1]) for _, points in lines)]) + "\n")
    all_rows = [rows for rows, _ in lines[0][1]]
    most_depth = max(depth for _, points in lines for _, depth in points)
    least, most = min(all_rows), max(all_rows)
    top_depth = 10 ** math.ceil(math.log10(most_depth))

    def x(rows):
        return place(rows, least, most, LEFT, WIDTH - RIGHT)

    def y(depth):
        return place(max(1, depth), 1, top_depth, HEIGHT - BOTTOM, TOP)

    made = [
        f'<svg xmlns="http://www.w3.org/2000/svg" viewBox="0 0 {WIDTH} {HEIGHT}" font-family="sans-serif" font-size="12">',
        f'<rect width="{WIDTH}" height="{HEIGHT}" fill="#ffffff"/>',
    ]
    depth = 1
    while depth <= top_depth:
        made.append(f'<line x1="{LEFT}" y1="{y(depth):.1f}" x2="{WIDTH - RIGHT}" y2="{y(depth):.1f}" stroke="#dddddd"/>')
        made.append(f'<text x="{LEFT - 8}" y="{y(depth) + 4:.1f}" text-anchor="end">{depth:,}</text>')
        depth *= 10
    for rows in all_rows:
        made.append(f'<text x="{x(rows):.1f}" y="{HEIGHT - BOTTOM + 18}" text-anchor="middle">{rows:,}</text>')
    made.append(f'<text x="{(LEFT + WIDTH - RIGHT) / 2}" y="{HEIGHT - 10}" text-anchor="middle">rows of the table</text>')
    made.append(f'<text x="16" y="{(TOP + HEIGHT - BOTTOM) / 2}" text-anchor="middle" transform="rotate(-90 16 {(TOP + HEIGHT - BOTTOM) / 2})">depth, for ten rows</text>')
    for number, (name, points) in enumerate(lines):
        dashes = ' stroke-dasharray="6 4"' if number >= len(lines) // 2 else ""
        path = " ".join(f"{x(rows):.1f},{y(depth):.1f}" for rows, depth in points)
        made.append(f'<polyline points="{path}" fill="none" stroke="{COLOURS[number]}" stroke-width="2"{dashes}/>')
        level = TOP + 20 + 22 * number
        made.append(f'<line x1="{WIDTH - RIGHT + 14}" y1="{level}" x2="{WIDTH - RIGHT + 44}" y2="{level}" stroke="{COLOURS[number]}" stroke-width="2"{dashes}/>')
        made.append(f'<text x="{WIDTH - RIGHT + 50}" y="{level + 4}">{name}</text>')
    made.append("</svg>")
    with open(picture, "w", encoding="utf-8") as file:
        file.write("\n".join(made) + "\n")
