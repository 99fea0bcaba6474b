"""Pictures of stages of the pipelines, for docs/PIPELINES.md: some kept images of each program, as tools/look shows them."""
import importlib.machinery
import importlib.util
import os
import sys
import tempfile

TOP = os.path.join(os.path.dirname(os.path.abspath(__file__)), "..")
sys.path.append(os.path.join(TOP, "tools"))
import plan  # noqa: E402
import png  # noqa: E402
import scenes  # noqa: E402

SIZE, COLUMNS = (200, 150), 3
# the images of each program, in the order of its text, which is that of a report
STAGES = {
    "isp": ["light", "clean", "w", "green", "luma", "detail"],
    "canny": ["smooth", "strength", "ridge", "weak", "edge0", "edge8"],
    "deblur": ["blur1", "error1", "change1", "sharp1", "sharp4", "sharp8"],
    "flow": ["ix", "iy", "it", "det", "sure", "across_flow"],
    "stereo": ["column6", "cost6", "score6", "disparity", "right_disparity", "matched"],
    "corners": ["gx", "gy", "trace", "strength", "line_peak", "corner"],
}


def look_module():
    """tools/look, which has no ending of a Python file."""
    loader = importlib.machinery.SourceFileLoader("look", os.path.join(TOP, "tools", "look"))
    module = importlib.util.module_from_spec(importlib.util.spec_from_loader("look", loader))
    loader.exec_module(module)
    return module


def stages(look, program, text, images, wanted):
    """The wanted kept images of a program, each from black to white."""
    with tempfile.TemporaryDirectory() as folder:
        dk = look.Dk(program, folder)
        dk.write("p.dk", text)
        dk.write("in.pgm", images)
        report = plan.Report(dk.need("plan", "p.dk"))
        kept = [image for image in report.images if image[0] in wanted]
        if [name for name, *_ in kept] != wanted:
            sys.exit(f"pipelines: of the images {' '.join(wanted)} some are not kept, or in another order")
        front = look.front_of(text.decode())
        shown = look.signs(dk, front, kept, plan.Program(text.decode()).inputs)
        return [look.stretched(lines)[0] for lines in look.pictures(dk, front, shown)]


def write(program, folder, file_of, sized, sources):
    """A picture of each pipeline, of stages by `eval`."""
    look, given = look_module(), scenes.inputs(*SIZE)
    for name, wanted in STAGES.items():
        pictures = stages(look, program, sized(name, SIZE), file_of(given[sources[name]]), wanted)
        with open(os.path.join(folder, f"pipeline-{name}-stages.png"), "wb") as file:
            file.write(png.png(png.sheet(pictures, COLUMNS)))
