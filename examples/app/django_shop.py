"""A shop with Django, in one file: ./gvr app django_shop:application --chdir examples/app"""
from django.conf import settings
from django.core.wsgi import get_wsgi_application
from django.http import Http404, HttpResponse, JsonResponse
from django.urls import path

prices = {"tea": 3, "bread": 2}


def everything(request):
    return JsonResponse(prices)


def price(request, name):
    if request.method == "POST":
        prices[name] = int(request.POST["price"])
    if name not in prices:
        raise Http404(name)
    return HttpResponse("%d\n" % prices[name], content_type="text/plain")


urlpatterns = [path("", everything), path("price/<str:name>", price)]
settings.configure(ROOT_URLCONF=__name__, ALLOWED_HOSTS=["*"], SECRET_KEY="only for this example")
application = get_wsgi_application()
