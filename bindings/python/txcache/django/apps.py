"""The application for INSTALLED_APPS, which brings `manage.py txcache`."""

from django.apps import AppConfig


class TxCacheConfig(AppConfig):
    name, label, verbose_name = "txcache.django", "txcache", "TxCache"
