"""The files of the window's page, which its server gives. Others stand beside them: those of
films, which are put into one page."""
from pathlib import Path

PAGE = Path(__file__).resolve().parent / "page"
FILES = (
    "index.html", "bar.css", "style.css", "arrays.js", "awaiting.js", "bar.js", "bends.js",
    "boot.js", "camera.js", "cells.js", "connection.js", "controls.js", "coordinate.js",
    "divider.js", "doing.js", "drape.js", "draping.js", "fault.js", "faults.js", "first.js",
    "fitting.js", "follower.js", "front.js", "glides.js", "gltf.js", "ground.js", "hands.js",
    "heights.js", "hierarchy.js", "hollowing.js", "hollows.js", "keeping.js", "late.js",
    "layout.js", "leaving.js", "link.js", "main.js", "matrices.js", "mesh.js", "normals.js",
    "panel.js", "picking.js", "pictures.js", "relief.js", "remembering.js", "renderer.js",
    "replies.js", "returning.js", "scene.js", "session.js", "shaders.js", "shape.js", "slots.js",
    "spots.js", "steering.js", "stretch.js", "surface.js", "tasks.js", "terrain.js", "textures.js",
    "texturing.js", "upright.js", "viewer.js", "views.js", "work.js", "worker.js", "working.js",
    "writers.js", "zip.js",
)
