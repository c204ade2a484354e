"""manage.py txcache install|check|purge|uninstall: the triggers of the tables in TXCACHE_TABLES, and whether they stand."""

from typing import Any

from django.core.management.base import BaseCommand, CommandError

from txcache.__main__ import lines_of
from txcache.django._cache import the_cache
from txcache.errors import NotInstalled, TxCacheError


class Command(BaseCommand):
    help = "Installs, checks, purges or uninstalls the triggers of the tables in TXCACHE_TABLES."
    requires_system_checks = []

    def add_arguments(self, parser: Any) -> None:
        parser.add_argument("act", choices=["install", "check", "purge", "uninstall"])
        parser.add_argument("--database", help="another alias of the same database, as that of the tables' owner")
        parser.add_argument("--reader", metavar="ROLE", help="the role of the services: install has it alone read the notes, and check looks whether it may")

    def handle(self, *_: Any, **words: Any) -> None:
        store = the_cache().store
        store.of = words["database"] or store.of
        try:
            self.stdout.write("\n".join(lines_of(words["act"], store, words["reader"])))
        except NotInstalled as error:
            raise CommandError("\n".join(error.lines)) from error
        except TxCacheError as error:
            raise CommandError(str(error)) from error
