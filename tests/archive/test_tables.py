"""Tables of pixels, for `aecp edit` and `aecp pixels`."""

from __future__ import annotations

import os

from making import keep, made, read, samples_at, walk, write
from running import command, done, refused


def test_a_table_by_the_shape_of_the_file(place: str) -> None:
    samples = walk(1, 2 * 20 * 30)
    made(os.path.join(place, "f.aec"), samples, shape=(2, 20, 30))
    made(os.path.join(place, "flat.aec"), walk(1, 600), shape=(20, 30))
    write(place, "bad.csv", b"row,column,value\n1,2,7\n0,3,5\n")
    done(place, "edit", "flat.aec", "bad.csv")
    flat = walk(1, 600)
    flat[32], flat[3] = 7, 5
    assert samples_at(os.path.join(place, "flat.aec")) == flat
    write(place, "stack.csv", b"frame,row,column,value\n1,1,2,7\n0,0,3,5\n")
    done(place, "edit", "f.aec", "stack.csv")
    samples[632], samples[3] = 7, 5
    assert samples_at(os.path.join(place, "f.aec")) == samples
    before = read(place, "flat.aec")
    for rows in (b"20,0,1\n", b"0,30,1\n", b"-1,0,1\n", b"0,-1,1\n", b"0,0,70000\n", b"0,0,x\n"):
        write(place, "wrong.csv", b"row,column,value\n" + rows)
        refused(place, "edit", "flat.aec", "wrong.csv")
    write(place, "wrong.csv", b"row,column,value\n9,4,-3\n2,2,7\n1,1,5\n1,1,70000\n30,0,1\n")
    said = refused(place, "edit", "flat.aec", "wrong.csv").err
    assert "line 2: row 9, column 4: the value -3 is out of range: 0 to 65535" in said, said
    assert "line 5: row 1, column 1: the value 70000 is out of range: 0 to 65535" in said, said
    assert "line 6: row 30, column 0 is outside 20x30" in said and said.count("line ") == 3, said
    write(place, "wrong.csv", b"place,value\n600,1\n599,65535\n599,65536\n")
    said = refused(place, "edit", "flat.aec", "wrong.csv").err
    assert "line 2: place 600 is outside the 600 samples" in said and "line 4: place 599: the value 65536 is" in said, said
    assert read(place, "flat.aec") == before


def test_a_table_without_frames_for_several(place: str) -> None:
    """It would change the first frame only: nothing is changed, unless --frame says which one is meant."""
    samples = walk(1, 6 * 20 * 30)
    path = made(os.path.join(place, "f.aec"), samples, shape=(2, 3, 20, 30))
    before = read(path)
    for name, table in (("named.csv", b"row,column,value\n1,2,7\n"), ("bare.tsv", b"1\t2\t7\n"), ("bad.csv", b"x,y,new\n2,99,7\n")):
        write(place, name, table)
        ran = refused(place, "edit", "f.aec", name)
        wanted = "f.aec: there are 6 frames, and the table doesn't say which one is meant: add a column frame, or give --frame K"
        assert wanted in ran.err and read(path) == before, ran
        assert "are 6 frames" in refused(place, "pixels", name, "--shape", "6x20x30").err
        assert "are 6 frames" in refused(place, "edit", "f.aec", name, "--shape", "20x30").err and read(path) == before
        assert "are 4 frames" in refused(place, "edit", "f.aec", name, "--shape", "33x30").err and read(path) == before
    refused(place, "edit", "f.aec", "named.csv", "--shape", "20x30", "--frame", "6")
    one = (["--frame", "0"], ["--shape", "120x30"], ["--shape", "1x120x30"], ["--shape", "20x30", "--frame", "0"])
    for words in (*one, ["--frame", "5"], ["--shape", "20x30", "--frame", "5"]):
        done(place, "edit", "f.aec", "named.csv", *words)
        wanted_samples = samples.copy()
        wanted_samples[(0 if words in one else 5 * 20 * 30) + 32] = 7
        assert samples_at(path) == wanted_samples, words
        done(place, "undo", "f.aec")
    write(place, "places.csv", b"place,value\n32,7\n")
    done(place, "edit", "f.aec", "places.csv")
    made(os.path.join(place, "one.aec"), walk(1, 600), shape=(1, 20, 30))
    done(place, "edit", "one.aec", "named.csv")
    assert samples_at(path)[32] == samples_at(os.path.join(place, "one.aec"))[32] == 7


def test_a_table_given_for_a_script_is_explained(place: str) -> None:
    keep(place, "f", walk(1, 600))
    write(place, "bad.csv", b"row,column,value\n1,2,7\n0,3,5\n")
    ran = refused(place, "edit", "f.aec", "bad.csv")
    assert "shape" in ran.err, ran


def test_pixels(place: str) -> None:
    write(place, "table.csv", b"row,column,value\n1,2,7\n0,3,5\n1,2,7\n")
    write(place, "table.tsv", b"1\t2\t7\n0\t3\t5\n")
    for table in ("table.csv", "table.tsv"):
        assert done(place, "pixels", "--shape", "10x20", table).out == "overwrite 3 5\noverwrite 22 7\n"
    assert done(place, "pixels", "--shape", "10x20", "--frame", "2", "table.csv").out == "overwrite 403 5\noverwrite 422 7\n"
    refused(place, "pixels", "--shape", "1x20", "table.csv")
    for row in (b"0,20,1", b"10,0,1", b"-1,0,1", b"0,-1,1", b"3,20,1"):
        refused(place, "pixels", "--shape", "10x20", "-", given=row + b"\n")
    refused(place, "pixels", "--shape", "9x9", "-", given=b"1," + b"x" * 200000)
    assert done(place, "pixels", "--shape", "9x9", "-", given=b"0,1,5\r0,2,6\r\n").out == "overwrite 1 5\noverwrite 2 6\n"
    assert command(place, "pixels", "--shape", "1", "table.csv").status == 2
    ran = refused(place, "pixels", "--shape", "10x20", "-", given=b"0,2,7\n0,2,8\n1,x,2\n")
    assert "line 2" in ran.err and "line 3" in ran.err
