"""The window: a small server that shows a mesh in the browser, refined for where its camera looks.

`./viewer` at the top of the repository starts it. One module has one part of the way:

    main        the words of the command line
    model       from a file, stream or OBJ, to a stream that is ready to be looked at
    kept        streams that were built before
    progress    how far a model is on its way from its file
    seat        where the window of some words listens, now and at its next start
    colours     the colours of an OBJ file's vertices
    manual      the cures that docs/commands has for faults
    program     the child `vdpm live` over pipes
    library     the same by the library, in this process
    arrays      what it tells as arrays, and not as lines
    showing     a model and its program, which may be started anew
    address     where that is served
    server      the page, and what it asks for
    page_files  which files that page has
    websocket   the server's end of the line over which scripts come
    hierarchy   reads a stream, for films
    film        a page that needs no server
    alone       the window as a page that needs no server
    module      the engine as a WebAssembly module, for that page
    bundle      modules of a page as one script
    page/       what runs in the browser
    alone_page/ what the page without a server has beside that
    tests/      the tests; tools/test_viewer.py runs them
"""
