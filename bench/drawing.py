"""What scripts of bench/ that draw share."""

TEXT = 'font-family="sans-serif" font-size="12" fill="#222"'


def text(x, y, words, anchor="middle"):
    return f'<text x="{x:.1f}" y="{y:.1f}" text-anchor="{anchor}" {TEXT}>{words}</text>'


def picture(width, height, parts):
    """An SVG of parts, on white."""
    head = f'<svg xmlns="http://www.w3.org/2000/svg" viewBox="0 0 {width} {height}">'
    return "\n".join([head, f'<rect width="{width}" height="{height}" fill="#fff"/>', *parts, "</svg>"])
