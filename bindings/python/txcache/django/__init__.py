"""Django beside a cache: a database alias that reads in the snapshot of the function that runs.

    DATABASES = {"default": {..}, "txcache": {"ENGINE": "txcache.django", "OF": "default"}}
    DATABASE_ROUTERS = ["txcache.django.Router"]
    INSTALLED_APPS = [.., "txcache.django"]                     # for manage.py txcache install|check|purge
    TXCACHE_TABLES = {"shop_item": ["id"], "shop_bid": ["id", "item_id"]}

    from txcache.django import cache

    @cache.cacheable
    def bids(db, item):
        return list(Bid.objects.using("txcache").filter(item=item))
"""

try:
    import django as _django  # noqa: F401
except ImportError as error:
    raise ImportError("txcache.django needs Django 3.2 or later: apt-get install python3-django, or pip install 'txcache[django]'") from error

from typing import Any

from ._cache import the_cache
from .router import Router

__all__ = ["Router", "cache"]


def __getattr__(name: str) -> Any:
    if name == "cache":
        return the_cache()
    raise AttributeError(f"module {__name__!r} has no attribute {name!r}")
