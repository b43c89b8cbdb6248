"""What is told of a file, as tests compare it."""
from dejavu_tools.adopt.obstacles import ObstaclesFound
from dejavu_tools.adopt.options import Options
from dejavu_tools.adopt.translate import adopt


def told(path):
    """The lines, columns and words of a file's obstacles."""
    try:
        adopt([path], Options())
    except ObstaclesFound as found:
        return [(obstacle.place.line, obstacle.place.column, obstacle.what) for obstacle in found.obstacles]
    return []
