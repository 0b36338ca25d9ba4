"""What the scripts on Dask share: a scheduler and workers as processes of this machine on loopback, or a scheduler that runs elsewhere."""

import atexit
import logging
import os
import sys
import tempfile

PACKAGE = 'Needs Dask: on Debian `apt-get install python3-distributed python3-pandas`, and the distribution\'s own /usr/bin/python3.'


def add_options(words):
    where = words.add_mutually_exclusive_group()
    where.add_argument('--workers', type=int, default=2, metavar='N', help='start a scheduler and so many workers on 127.0.0.1 (default 2)')
    where.add_argument('--scheduler', metavar='ADDRESS', help='use this scheduler, as tcp://127.0.0.1:8786, whose workers see the same files')


def set_aside(folder):
    """Let what Dask's own processes say go to a file, and what this one says still to standard error: a worker that is ended, or closed while it starts, says
    so by a traceback, which is none of the caller's."""
    said = os.fdopen(os.dup(2), 'w')
    log = os.open(os.path.join(folder, 'log'), os.O_WRONLY | os.O_CREAT)
    sys.stderr.flush()
    os.dup2(log, 2)
    os.close(log)
    sys.stderr = said


def client(given):
    """A client of the scheduler that the command line names, or of one that is started."""
    try:
        import dask
        import distributed
    except ImportError:
        sys.exit(PACKAGE)
    # (A connection that is closed at the end leaves futures of its own, which asyncio would name one by one.)
    logging.getLogger('asyncio').setLevel(logging.CRITICAL)
    dask.config.set({'distributed.admin.tick.limit': '60s', 'distributed.scheduler.allowed-failures': 10})
    if given.scheduler:
        try:
            return distributed.Client(given.scheduler, timeout=10)
        except OSError as fault:
            sys.exit('%s: %s' % (given.scheduler, fault))
    if given.workers < 1:
        sys.exit('--workers is at least 1')
    # A folder of their own: in the usual one they would tell of what workers left there that were killed.
    folder = tempfile.TemporaryDirectory(prefix='sonata-dask-')
    atexit.register(folder.cleanup)
    set_aside(folder.name)
    cluster = distributed.LocalCluster(n_workers=given.workers, threads_per_worker=1, processes=True, host='127.0.0.1', dashboard_address=None, silence_logs=50,
                                       local_directory=folder.name)
    return distributed.Client(cluster)


def end(client):
    """Leave the scheduler; one that was started here ends with its workers."""
    cluster = client.cluster
    client.close()
    if cluster is not None:
        cluster.close()
