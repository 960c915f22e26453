//! Requests that clients have registered.

use dervisclo::builder::Builder;

pub fn requests(document: &mut Builder) {
    product_list(document);
    search(document);
    place_order(document);
    document.subscription("OrderStatus", |subscription| {
        subscription.variable_definition("order", |order| order.ty("ID!"));
        subscription.field("orderChanged", |order| {
            order.argument("id", |id| id.variable("order"));
            order.fields(["id", "status"]);
        });
    });
    fragments(document);
}

fn product_list(document: &mut Builder) {
    document.query("ProductList", |query| {
        query.variable_definition("first", |first| {
            first.ty("Int!");
            first.int(20);
        });
        query.variable_definition("after", |after| after.ty("String"));
        query.variable_definition("withReviews", |with| {
            with.ty("Boolean!");
            with.boolean(false);
        });
        query.field("products", |products| {
            products.argument("where", |filter| {
                filter.object(|filter| {
                    filter.object_field("tags", |tags| {
                        tags.list(|list| {
                            list.string("new");
                            list.string("on \"sale\"");
                        });
                    });
                    filter.object_field("currency", |currency| currency.enum_value("SEK"));
                });
            });
            products.argument("first", |first| first.variable("first"));
            products.argument("after", |after| after.variable("after"));
            products.field("edges", |edges| {
                edges.field("node", |node| {
                    node.fragment_spread("ProductParts", |_| ());
                    node.field("reviews", |reviews| {
                        reviews.alias("latest");
                        reviews.argument("first", |first| first.int(3));
                        reviews.directive("include", |include| {
                            include.argument("if", |value| value.variable("withReviews"));
                        });
                        reviews.fields(["stars", "text"]);
                    });
                });
            });
            products.field("pageInfo", |info| info.fields(["endCursor", "hasNextPage"]));
        });
    });
}

fn search(document: &mut Builder) {
    document.query("Search", |query| {
        query.variable_definition("text", |text| text.ty("String!"));
        query.field("search", |search| {
            search.argument("text", |text| text.variable("text"));
            search.argument("sort", |sort| sort.enum_value("NEWEST_FIRST"));
            search.fields(["__typename"]);
            search.inline_fragment("Product", |product| {
                product.fragment_spread("ProductParts", |_| ());
            });
            search.inline_fragment("Customer", |customer| customer.fields(["id", "name"]));
            search.inline_fragment("Order", |order| {
                order.directive("skip", |skip| {
                    skip.argument("if", |value| value.boolean(true))
                });
                order.fields(["id", "status"]);
            });
        });
    });
}

fn place_order(document: &mut Builder) {
    document.mutation("PlaceOrder", |mutation| {
        mutation.variable_definition("input", |input| input.ty("PlaceOrderInput!"));
        mutation.field("placeOrder", |order| {
            order.argument("input", |input| input.variable("input"));
            order.field("id", |id| id.alias("order"));
            order.field("total", |total| total.fragment_spread("MoneyParts", |_| ()));
        });
    });
}

fn fragments(document: &mut Builder) {
    document.fragment("ProductParts", "Product", |product| {
        product.fields(["id", "sku", "name"]);
        product.field("price", |price| price.fragment_spread("MoneyParts", |_| ()));
    });
    document.fragment("MoneyParts", "Money", |money| {
        money.fields(["amount", "currency"])
    });
}
