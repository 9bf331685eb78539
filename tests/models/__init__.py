"""Plain models that the proved program is compared with."""
