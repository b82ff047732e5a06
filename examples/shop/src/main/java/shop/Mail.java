package shop;

public class Mail {
    static final String HOST = "shop.mail.host";
}
