"""A QGIS project for an export that lies beside it: its layers, drawn and edited as its styles say, and what links lead from and to (QGS of QGIS 3)."""

from xml.sax.saxutils import escape

from . import styles
from .exports import Units, literal
from .styles import HIDDEN, form, option, widget

# Of each end of a link: the table that is chosen from, and how the field is called.
MARK, MEDIUM, TILE = ("sheet_rows", "Mark"), ("sheet_media", "Medium"), ("sheet_tile_identity", "Sheet")
# What stands for a row of a table, in its own style and in a project, whose lists show it: there each row's number is in it.
SHOWN = {
    "sheet_rows": ('"label"', 'concat("id", &apos;: &apos;, "label")'),
    "sheet_media": ('"id"', 'concat("id", &apos;: &apos;, "content_type")'),
}
# Of each layer: how it is called, and its geometry.
LAYERS = {
    "sheet_rows": ("Marks", "Point"),
    "sheet_tile_identity": ("Outlines of the sheets", "Polygon"),
    "sheet_media": ("Photographs and other media", "No geometry"),
}
LINKS = {
    "rows_media": ("Media of marks", MARK, MEDIUM),
    "tiles_media": ("Media of sheets", TILE, MEDIUM),
    "rows_tiles": ("Marks of sheets", MARK, TILE),
}
FIELDS = ("base_id", "related_id")


def layer_id(table):
    """QGIS takes no identity of ten letters or fewer, and makes another without a word."""
    return f"layer_{table}"


def relation_id(table, field):
    return f"{table}_{field}"


def chosen(table, field):
    """A field that is chosen from the rows that its relation leads to, with none chosen at first."""
    return widget(field, "RelationReference", option("Relation", relation_id(table, field)), option("AllowNULL", "true", "bool"))


def link_style(table, *ends):
    names = [(field, end[1]) for field, end in zip(FIELDS, ends)]
    return form([HIDDEN["id"], *(chosen(table, field) for field in FIELDS)], names, '"id"')


def named_style(table):
    """The style of a table in its file, but for what stands for a row."""
    style = styles.STYLES[table][1]
    if table not in SHOWN:
        return style
    plain, numbered = (f"<previewExpression>{shown}</previewExpression>" for shown in SHOWN[table])
    assert style.endswith(plain), table
    return style.removesuffix(plain) + numbered


def system_of(srs):
    """Of a frame without a system none. QGIS reads one only where its `srsid` is above 0."""
    return f"<spatialrefsys><srsid>1</srsid><authid>EPSG:{srs}</authid></spatialrefsys>" if srs > 0 else ""


def vector(file, table, title, geometry, system, style):
    source = f"<datasource>./{escape(file)}|layername={table}</datasource><layername>{title}</layername>"
    front = f'<maplayer type="vector" geometry="{geometry}"><id>{layer_id(table)}</id>{source}<srs>{system}</srs>'
    return f'{front}<provider encoding="UTF-8">ogr</provider>{style}</maplayer>\n'


def raster(file, system):
    source = f"<datasource>./{escape(file)}</datasource><layername>Sheets</layername>"
    return f'<maplayer type="raster"><id>layer_sheet_tiles</id>{source}<srs>{system}</srs><provider>gdal</provider></maplayer>\n'


def relation(table, title, field, end):
    ends = f'referencingLayer="{layer_id(table)}" referencedLayer="{layer_id(end[0])}" strength="Association"'
    return f'<relation id="{relation_id(table, field)}" name="{title}" {ends}><fieldRef referencingField="{field}" referencedField="id"/></relation>\n'


def tree():
    """The layers from the topmost."""
    titles = {**{table: layer[0] for table, layer in LAYERS.items()}, **{table: link[0] for table, link in LINKS.items()}, "sheet_tiles": "Sheets"}
    nodes = (f'<layer-tree-layer id="{layer_id(table)}" name="{title}" checked="Qt::Checked" expanded="0"/>\n' for table, title in titles.items())
    return f"<layer-tree-group>\n{''.join(nodes)}</layer-tree-group>\n"


def canvas(frame, system):
    bounds = zip(("xmin", "ymin", "xmax", "ymax"), (frame.min_x, frame.min_y, frame.max_x, frame.max_y))
    extent = "".join(f"<{side}>{literal(Units(bound))}</{side}>" for side, bound in bounds)
    return f'<mapcanvas name="theMapCanvas"><extent>{extent}</extent><destinationsrs>{system}</destinationsrs></mapcanvas>\n'


def layers(file, system):
    for table, (title, geometry) in LAYERS.items():
        yield vector(file, table, title, geometry, "" if geometry == "No geometry" else system, named_style(table))
    for table, (title, *ends) in LINKS.items():
        yield vector(file, table, title, "No geometry", "", link_style(table, *ends))
    yield raster(file, system)


def project(frame, file):
    system = system_of(frame.srs)
    relations = [relation(table, title, field, end) for table, (title, *ends) in LINKS.items() for field, end in zip(FIELDS, ends)]
    return "".join([
        "<!DOCTYPE qgis PUBLIC 'http://mrcc.com/qgis.dtd' 'SYSTEM'>\n",
        '<qgis version="3.22.0" projectname="">\n<title>Field work</title>\n',
        f"<projectCrs>{system}</projectCrs>\n",
        tree(),
        canvas(frame, system),
        "<projectlayers>\n",
        *layers(file, system),
        "</projectlayers>\n<relations>\n",
        *relations,
        '</relations>\n<properties><SpatialRefSys><ProjectionsEnabled type="int">1</ProjectionsEnabled></SpatialRefSys></properties>\n</qgis>\n',
    ])
