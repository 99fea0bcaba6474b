"""The templates of this package: texts in HTML and SVG, by Jinja2."""
from __future__ import annotations

from .failures import MissingTool


def render(template: str, /, **values: object) -> str:
    """The text of a template with these values, which are escaped in HTML and SVG. Raises `MissingTool` if Jinja2 is not installed."""
    try:
        import jinja2
    except ImportError:
        raise MissingTool("Jinja2", "python3-jinja2") from None
    environment = jinja2.Environment(loader=jinja2.PackageLoader("darkroom"), autoescape=jinja2.select_autoescape(["html", "svg"]),
                                     undefined=jinja2.StrictUndefined, keep_trailing_newline=True)
    return environment.get_template(template).render(**values)
