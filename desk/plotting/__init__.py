"""The foil as strokes for a plotter, from the table that the proved program saved and from nothing else.

    tables       the table, read from the bytes of a save
    strokes      its legs as polylines: every leg in one of them, once
    sheets       foils on a sheet, in nanometres: where each lies, and in which order it is drawn
    formats      the formats, each in a module of its own: hpgl, gerber, vectors (SVG), gcode, rows (CSV)
    making       a foil to be plotted, and why one is not
    command      the command ./foil-plot"""
