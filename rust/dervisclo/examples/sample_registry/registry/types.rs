use super::{deprecated, input, key, plain, told};
use dervisclo::builder::Builder;

pub fn types(document: &mut Builder) {
    scalars_and_interfaces(document);
    products(document);
    customers(document);
    orders(document);
    document.union_type("SearchResult", |result| {
        result.description("What a search can find.");
        result.union_members(["Product", "Customer", "Order"]);
    });
    enums(document);
}

fn scalars_and_interfaces(document: &mut Builder) {
    document.scalar_type("DateTime", |date| {
        date.description("A moment in UTC: `2026-11-15T20:00:00Z`.");
        date.directive("specifiedBy", |by| {
            by.argument("url", |url| url.string("https://scalars.example/date-time"));
        });
    });
    document.scalar_type("Decimal", |_| ());
    document.interface_type("Node", |node| {
        told(node, "id", "Never given twice.", "ID!");
    });
    document.interface_type("Sellable", |sellable| {
        sellable.interfaces(["Node"]);
        plain(sellable, "id", "ID!");
        plain(sellable, "price", "Money!");
    });
}

fn products(document: &mut Builder) {
    document.object_type("Product", |product| {
        // Both lines are indented, so a block would lose the indent.
        product.description("  Sold by the piece,\n  or by weight where `unit` says so.");
        product.interfaces(["Node", "Sellable"]);
        key(product, "id");
        key(product, "sku");
        plain(product, "id", "ID!");
        told(product, "sku", "What the \"warehouse\" calls it", "String!");
        plain(product, "name", "String!");
        product.field_definition("description", |text| {
            text.description("In markdown. Code stands between \"\"\" and \"\"\".");
            text.input_value("length", |length| {
                length.ty("Int");
                length.null();
            });
            text.ty("String");
        });
        plain(product, "price", "Money!");
        plain(product, "unit", "String");
        product.field_definition("reviews", |reviews| {
            input(reviews, "first", "Int!");
            reviews.ty("[Review!]!");
            reviews.directive("cost", |cost| {
                cost.argument("weight", |weight| weight.int(2))
            });
        });
        product.field_definition("rating", |rating| {
            rating.ty("Float");
            deprecated(rating, "Use `reviews`.");
        });
    });
    document.object_type("ProductConnection", |connection| {
        plain(connection, "edges", "[ProductEdge!]!");
        plain(connection, "pageInfo", "PageInfo!");
    });
    document.object_type("ProductEdge", |edge| {
        plain(edge, "cursor", "String!");
        plain(edge, "node", "Product!");
    });
    document.object_type("PageInfo", |info| {
        plain(info, "endCursor", "String");
        plain(info, "hasNextPage", "Boolean!");
    });
    document.object_type("Money", |money| {
        plain(money, "amount", "Decimal!");
        plain(money, "currency", "Currency!");
    });
}

fn customers(document: &mut Builder) {
    document.object_type("Customer", |customer| {
        customer.interfaces(["Node"]);
        key(customer, "id");
        plain(customer, "id", "ID!");
        told(customer, "name", "As it stands on parcels.", "String!");
        plain(customer, "addresses", "[Address!]!");
        customer.field_definition("orders", |orders| {
            orders.input_value("status", |status| {
                status.ty("[OrderStatus!]!");
                status.list(|list| {
                    list.enum_value("PLACED");
                    list.enum_value("SHIPPED");
                });
            });
            orders.ty("[Order!]!");
        });
    });
    document.object_type("Address", |address| {
        plain(address, "lines", "[String!]!");
        plain(address, "city", "String!");
        told(address, "country", "Two letters, ISO 3166-1.", "String!");
    });
    document.object_type("Review", |review| {
        review.interfaces(["Node"]);
        plain(review, "id", "ID!");
        plain(review, "author", "Customer");
        told(review, "stars", "1 to 5.", "Int!");
        plain(review, "text", "String");
    });
}

fn orders(document: &mut Builder) {
    document.object_type("Order", |order| {
        order.description(
            "A cart that was paid for.\nIt is never changed, only followed by another.",
        );
        order.interfaces(["Node"]);
        key(order, "id");
        plain(order, "id", "ID!");
        plain(order, "status", "OrderStatus!");
        plain(order, "lines", "[OrderLine!]!");
        plain(order, "total", "Money!");
        plain(order, "placedAt", "DateTime!");
        order.field_definition("margin", |margin| {
            margin.ty("Decimal");
            margin.directive("internal", |_| ());
        });
    });
    document.object_type("OrderLine", |line| {
        plain(line, "product", "Product!");
        plain(line, "quantity", "Int!");
        plain(line, "price", "Money!");
    });
    document.object_type("Cart", |cart| {
        plain(cart, "lines", "[OrderLine!]!");
        plain(cart, "total", "Money!");
    });
}

fn enums(document: &mut Builder) {
    document.enum_type("Currency", |currency| {
        currency.enum_values(["EUR", "GBP", "SEK", "USD"]);
    });
    document.enum_type("OrderStatus", |status| {
        status.description("Where an order stands.");
        status.enum_value_definition("PLACED", |value| value.description("Paid for."));
        status.enum_value_definition("PACKED", |value| deprecated(value, "Use `PLACED`."));
        status.enum_value_definition("SHIPPED", |value| value.description("On its way."));
        status.enum_values(["DELIVERED", "RETURNED"]);
    });
    document.enum_type("SortOrder", |order| {
        order.enum_values(["BEST_FIRST", "CHEAPEST_FIRST", "NEWEST_FIRST"]);
    });
}
