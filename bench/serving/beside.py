"""Processes that play beside the main one, so that clients wait for the server and not for each other."""
import multiprocessing


def beside(play, *share):
    """Starts a process that calls `play` with its end of a pipe and its share, and gives the other end."""
    ours, theirs = multiprocessing.Pipe()
    multiprocessing.Process(target=play, args=(theirs, *share), daemon=True).start()
    theirs.close()
    return ours
