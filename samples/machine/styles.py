"""How an export is drawn and edited in QGIS: a style for each of three tables, as a row of layer_styles has it (QML of QGIS 3)."""


def option(name, value, kind="QString"):
    return f'<Option name="{name}" value="{value}" type="{kind}"/>'


def options(*inside):
    return f'<Option type="Map">{"".join(inside)}</Option>'


def widget(field, kind, *config):
    """What a form shows of a field."""
    return f'<field name="{field}"><editWidget type="{kind}"><config>{options(*config)}</config></editWidget></field>'


def choice(*pairs):
    """A widget's list of values; of each pair the first is shown, and the second is written."""
    return f'<Option name="map" type="List">{"".join(options(option(*pair)) for pair in pairs)}</Option>'


def symbol(kind, layer, *properties):
    """All features drawn alike."""
    drawn = f'<layer class="{layer}" enabled="1">{options(*properties)}</layer>'
    return f'<renderer-v2 type="singleSymbol"><symbols><symbol type="{kind}" name="0" alpha="1">{drawn}</symbol></symbols></renderer-v2>'


def form(widgets, names, shown):
    """The fields of a form, how they are called, and the expression that stands for a row."""
    aliases = "".join(f'<alias field="{field}" name="{name}"/>' for field, name in names)
    return f"<fieldConfiguration>{''.join(widgets)}</fieldConfiguration><aliases>{aliases}</aliases><previewExpression>{shown}</previewExpression>"


DOTS = symbol("marker", "SimpleMarker", option("color", "214,40,40,255"), option("outline_color", "255,255,255,255"), option("name", "circle"), option("size", "3"))
LABELS = '<labeling type="simple"><settings><text-style fieldName="label" fontSize="9"/><placement dist="1"/></settings></labeling>'
EDGES = symbol("fill", "SimpleFill", option("style", "no"), option("outline_color", "60,60,60,255"))
CODE = widget("code", "Range", option("Min", "0", "int"), option("Max", "999999", "int"), option("AllowNull", "false", "bool"))
LABEL = widget("label", "TextEdit", option("IsMultiline", "false", "bool"))
TYPES = widget("content_type", "ValueMap", choice(("photograph (JPEG)", "image/jpeg"), ("picture (PNG)", "image/png")))
HIDDEN = {field: widget(field, "Hidden") for field in ("id", "uuid")}

# A row's number and place, with no apostrophe, which would end the literal of SQL.
SHEET = '"id" || &apos;: &apos; || "zoom_level" || &apos;, &apos; || "tile_column" || &apos;, &apos; || "tile_row"'

# Of each table: the column of its geometry, and its style.
STYLES = {
    "sheet_rows": ("geom", DOTS + LABELS + form([HIDDEN["id"], CODE, LABEL, HIDDEN["uuid"]], [("code", "Code"), ("label", "Label")], '"label"')),
    "sheet_tile_identity": ("geom", EDGES + form([HIDDEN["uuid"]], [("id", "Sheet")], SHEET)),
    "sheet_media": ("", form([widget("id", "TextEdit"), widget("data", "Binary"), TYPES, HIDDEN["uuid"]], [("id", "Number"), ("data", "File"), ("content_type", "Type")], '"id"')),
}


def rows():
    """The table, the column, and the style, of each row of layer_styles."""
    for table, (geometry, style) in STYLES.items():
        yield table, geometry, f'<qgis version="3.22.0">{style}</qgis>'
