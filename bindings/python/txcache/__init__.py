"""TxCache for Python programs.

`txcache.node` is the versioned cache of one node, and `txcache.site` a database in memory with transactions whose functions you compute.
`TxCache` caches beside a service's own database, which `txcache.postgres` or `txcache.sqlite` follows.
"""

from .cache import CacheInfo, Page, Receipt, TxCache
from .errors import AuditError, NotInstalled, NotSeen, OutsideSnapshot, SnapshotLost, SnapshotRefused, TxCacheError

__all__ = ["AuditError", "CacheInfo", "NotInstalled", "NotSeen", "OutsideSnapshot", "Page", "Receipt", "SnapshotLost", "SnapshotRefused", "TxCache", "TxCacheError"]
