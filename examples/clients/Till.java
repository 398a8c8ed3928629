import java.io.BufferedReader;
import java.io.IOException;
import java.io.InputStream;
import java.io.InputStreamReader;
import java.net.URI;
import java.net.URLEncoder;
import java.net.http.HttpClient;
import java.net.http.HttpRequest;
import java.net.http.HttpResponse;
import java.nio.charset.StandardCharsets;
import java.nio.file.Files;
import java.nio.file.Path;
import java.security.GeneralSecurityException;
import java.security.KeyFactory;
import java.security.KeyStore;
import java.security.SecureRandom;
import java.security.cert.Certificate;
import java.security.cert.CertificateFactory;
import java.security.spec.PKCS8EncodedKeySpec;
import java.time.Duration;
import java.util.ArrayList;
import java.util.Base64;
import java.util.HashMap;
import java.util.List;
import java.util.Map;
import java.util.regex.Matcher;
import java.util.regex.Pattern;
import javax.net.ssl.KeyManagerFactory;
import javax.net.ssl.SSLContext;
import javax.net.ssl.SSLHandshakeException;
import javax.net.ssl.TrustManagerFactory;

/**
 * A till that asks a vault for tokens through its front, as till.py does.
 *
 * <pre>java Till.java URL MERCHANT --certificate PEM --key PEM --authority PEM [--tries N]</pre>
 *
 * It reads card numbers from standard input, one a line, and prints a token and its end for each, or `refused`
 * and the vault's number, or `refused front` and the front's. Where no answer came, or one that says to come
 * again, the same request is sent again with the same number. The exit status is 1 where a request was refused
 * or unanswered.
 */
public final class Till {
    private static final Duration PATIENCE = Duration.ofSeconds(30);
    /** A merchant that isn't known, which behind a front may be a route that is on its way. */
    private static final String UNKNOWN = "refused 7";
    private static final int UNKNOWN_TRIES = 6;
    private static final SecureRandom RANDOM = new SecureRandom();

    private final URI target;
    private final SSLContext identity;
    private final int tries;

    /** What is told of a request: a line to print, or why there is none and after how many seconds to ask. */
    private record Told(String line, String why, long after) {
        boolean isRefused() {
            return line != null && line.startsWith("refused");
        }
    }

    private Till(String url, String merchant, SSLContext identity, int tries) {
        String name = URLEncoder.encode(merchant, StandardCharsets.UTF_8).replace("+", "%20");
        this.target = URI.create(url + "/v1/merchants/" + name + "/tokens");
        this.identity = identity;
        this.tries = tries;
    }

    private static void end(String line) {
        System.err.println(line);
        System.exit(1);
    }

    /** Sixteen letters by which the front's log has a request; digits might be taken for a card number. */
    private static String reference() {
        StringBuilder letters = new StringBuilder("till-");
        RANDOM.ints(16, 'a', 'q').forEach(it -> letters.append((char) it));
        return letters.toString();
    }

    /** The value of a member of the small objects that answers are; a service of one's own has a library. */
    private static String member(String text, String name) {
        Matcher found = Pattern.compile("\"" + name + "\":\"?([0-9]+)").matcher(text);
        return found.find() ? found.group(1) : null;
    }

    private static Told judged(HttpResponse<String> answer) {
        int status = answer.statusCode();
        String token = member(answer.body(), "token");
        String refused = member(answer.body(), "refused");
        if (status == 200 && token != null) {
            return new Told(token + " " + member(answer.body(), "expires"), null, 0);
        }
        if (refused != null) {
            return new Told("refused " + refused, null, 0);
        }
        if (status >= 400 && status < 500 && status != 408 && status != 429) {
            String front = member(answer.body(), "front");
            return new Told("refused front " + (front == null ? status : front), null, 0);
        }
        return new Told(null, "status " + status, answer.headers().firstValueAsLong("Retry-After").orElse(0));
    }

    /** One try of a request, over a connection of its own. */
    private Told once(String request, String reference, String number) throws InterruptedException {
        // a quote or a backslash would end the text; a card number has neither
        String body = "{\"number\":\"" + number.replaceAll("[\"\\\\]", "?") + "\",\"use\":\"single\"}";
        HttpRequest message = HttpRequest.newBuilder(target).timeout(PATIENCE)
            .header("X-Vault-Request", request).header("X-Vault-Reference", reference)
            .POST(HttpRequest.BodyPublishers.ofString(body)).build();
        HttpClient client = HttpClient.newBuilder().version(HttpClient.Version.HTTP_1_1)
            .connectTimeout(PATIENCE).sslContext(identity).build();
        try {
            return judged(client.send(message, HttpResponse.BodyHandlers.ofString()));
        } catch (SSLHandshakeException error) {
            end("the front's certificate isn't trusted: " + error.getMessage());
            return null;
        } catch (IOException error) {
            return new Told(null, error.getClass().getSimpleName(), 0);
        }
    }

    /** What is told of a card number, by one request that is repeated until it has an answer. */
    private Told token(String number) throws InterruptedException {
        String request = Long.toString(1 + (RANDOM.nextLong() >>> 1) % Long.MAX_VALUE);
        String reference = reference();
        long after = 0;
        int unknown = 0;
        for (int turn = 0; turn < tries; turn++) {
            if (turn > 0) {
                Thread.sleep(Math.max(Math.min(10000, 50L << turn), 1000 * after));
            }
            Told told = once(request, reference, number);
            boolean isUnknown = UNKNOWN.equals(told.line) && ++unknown < UNKNOWN_TRIES && turn < tries - 1;
            if (told.line != null && !isUnknown) {
                return told;
            }
            after = told.after;
            String why = isUnknown ? told.line : told.why;
            System.err.println("request " + request + " has no answer: " + why);
        }
        end("request " + request + " has no answer yet: send it again with this number");
        return null;
    }

    private static Certificate[] certificates(String path) throws IOException, GeneralSecurityException {
        try (InputStream file = Files.newInputStream(Path.of(path))) {
            var found = CertificateFactory.getInstance("X.509").generateCertificates(file);
            return found.toArray(new Certificate[0]);
        }
    }

    /** By which certificate the till asks, and by which authorities it knows the front. */
    private static SSLContext identity(Map<String, String> named) throws IOException, GeneralSecurityException {
        KeyStore known = KeyStore.getInstance(KeyStore.getDefaultType());
        known.load(null, null);
        for (Certificate one : certificates(named.get("authority"))) {
            known.setCertificateEntry("authority-" + known.size(), one);
        }
        KeyStore own = KeyStore.getInstance(KeyStore.getDefaultType());
        own.load(null, null);
        if (named.containsKey("certificate")) {
            String text = Files.readString(Path.of(named.get("key"))).replaceAll("-----[A-Z ]+-----|\\s", "");
            PKCS8EncodedKeySpec key = new PKCS8EncodedKeySpec(Base64.getDecoder().decode(text));
            own.setKeyEntry("till", KeyFactory.getInstance("EC").generatePrivate(key), new char[0],
                certificates(named.get("certificate")));
        }
        KeyManagerFactory keys = KeyManagerFactory.getInstance(KeyManagerFactory.getDefaultAlgorithm());
        keys.init(own, new char[0]);
        var trusted = TrustManagerFactory.getInstance(TrustManagerFactory.getDefaultAlgorithm());
        trusted.init(known);
        SSLContext context = SSLContext.getInstance("TLS");
        context.init(keys.getKeyManagers(), trusted.getTrustManagers(), RANDOM);
        return context;
    }

    public static void main(String[] words) throws IOException, InterruptedException {
        Map<String, String> named = new HashMap<>(Map.of("tries", "10"));
        List<String> others = new ArrayList<>();
        for (int place = 0; place < words.length; place++) {
            if (words[place].startsWith("--")) {
                named.put(words[place].substring(2), words[++place]);
            } else {
                others.add(words[place]);
            }
        }
        SSLContext identity = null;
        try {
            identity = identity(named);
        } catch (IOException | GeneralSecurityException error) {
            end("the certificates can't be used: " + error.getMessage());
        }
        Till till = new Till(others.get(0), others.get(1), identity, Integer.parseInt(named.get("tries")));
        int refused = 0;
        BufferedReader lines = new BufferedReader(new InputStreamReader(System.in, StandardCharsets.UTF_8));
        for (String line = lines.readLine(); line != null; line = lines.readLine()) {
            Told told = till.token(line.strip());
            refused += told.isRefused() ? 1 : 0;
            System.out.println(told.line);
        }
        if (refused > 0) {
            end("requests that were refused: " + refused);
        }
    }
}
