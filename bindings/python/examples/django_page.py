"""A Django view of an auction: its list of bids and its highest bid are of one moment, however bids come in between.

usage: django_page.py [FILE]      a SQLite file, by default one in a folder of its own
"""

import sys
import tempfile

import django
from django.conf import settings

FILE = sys.argv[1] if sys.argv[1:] else tempfile.mkdtemp() + "/auction.db"
settings.configure(
    DATABASES={"default": {"ENGINE": "django.db.backends.sqlite3", "NAME": FILE}, "txcache": {"ENGINE": "txcache.django", "OF": "default"}},
    DATABASE_ROUTERS=["txcache.django.Router"], INSTALLED_APPS=[__name__, "txcache.django"], TXCACHE_TABLES={"__main___item": ["id"], "__main___bid": ["id", "item_id"]},
    ROOT_URLCONF=__name__, ALLOWED_HOSTS=["testserver"], DEFAULT_AUTO_FIELD="django.db.models.AutoField", USE_TZ=True)
django.setup()

from django.core.management import call_command
from django.db import connection, models
from django.http import JsonResponse
from django.test import Client
from django.urls import path
from txcache.django import cache


class Item(models.Model):
    name = models.TextField()


class Bid(models.Model):
    item, price = models.ForeignKey(Item, models.CASCADE, related_name="bids"), models.IntegerField()


@cache.cacheable
def item(db, number):
    return Item.objects.using("txcache").prefetch_related("bids").get(pk=number)  # what the page shows of it is loaded here


@cache.cacheable
def highest(db, number):
    return Bid.objects.using("txcache").filter(item=number).aggregate(it=models.Max("price"))["it"]


def view(request, number):
    with cache.read(max_age=0.0):
        shown = item(number)
        return JsonResponse({"name": shown.name, "bids": [bid.price for bid in shown.bids.all()], "highest": highest(number)})


urlpatterns = [path("<int:number>", view)]
with connection.schema_editor() as editor:
    for model in (Item, Bid):
        editor.create_model(model)
call_command("txcache", "install")
Bid.objects.create(item=Item.objects.create(name="a lamp"), price=90)
for price in (110, 120):
    print(Client().get("/1").json())
    Bid.objects.create(item_id=1, price=price)
print(cache.stats()["hits"], "hits,", cache.stats()["computed"], "computed")
