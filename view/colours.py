"""The colours and strokes of messages, and the colours of copies and states, in pictures and pages: with the contrast that WCAG 2 wants of letters."""

PAPER, INK = '#ffffff', '#000000'
LEAST = 4.5
KINDS = {'RREQ': '#0072b2', 'RDATA': '#004a7c', 'WREQ': '#b34d00', 'WDATA': '#7f2f00', 'INV': '#b0206a', 'ACKC': '#7a3fa0', 'UPDATE': '#007a58',
         'REPM': '#00523b', 'BUSY': '#5f5f5f'}
OTHER = '#767676'
DASHES = {'RREQ': '1 3', 'RDATA': '14 2', 'WREQ': '3 2', 'WDATA': '', 'INV': '', 'ACKC': '8 3', 'UPDATE': '12 3', 'REPM': '8 3 3 3', 'BUSY': '8 2 1 2'}
HEAVY = {'RDATA', 'WDATA'}
COPIES = {'read': '#dbeaf6', 'write': '#f3b265'}
STATES = {'RO': '#dbeaf6', 'RW': '#f3b265', 'RT': '#c3e6d3', 'WT': '#dcaed9'}


def lightness(colour):
    """The relative luminance of a colour, from 0 to 1."""
    parts = (int(colour[at:at + 2], 16) / 255 for at in (1, 3, 5))
    red, green, blue = (part / 12.92 if part <= 0.03928 else ((part + 0.055) / 1.055) ** 2.4 for part in parts)
    return 0.2126 * red + 0.7152 * green + 0.0722 * blue


def contrast(one, two):
    """The contrast of two colours, from 1 to 21."""
    low, high = sorted((lightness(one), lightness(two)))
    return (high + 0.05) / (low + 0.05)


def rules():
    """The colours and dashes as properties of a page, by the names of kinds, copies and states."""
    named = {**KINDS, 'other': OTHER, **COPIES, **STATES} | {f'{kind}-dash': dash or 'none' for kind, dash in DASHES.items()}
    return ':root { ' + ' '.join(f'--{name}: {value};' for name, value in named.items()) + ' }'
