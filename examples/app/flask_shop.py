"""A shop with Flask: ./gvr app flask_shop:app --chdir examples/app"""
import flask

app = flask.Flask(__name__)
prices = {"tea": 3, "bread": 2}


@app.route("/")
def everything():
    return flask.jsonify(prices)


@app.route("/price/<name>", methods=["GET", "POST"])
def price(name):
    if flask.request.method == "POST":
        prices[name] = int(flask.request.form["price"])
    if name not in prices:
        flask.abort(404)
    return "%d\n" % prices[name]
