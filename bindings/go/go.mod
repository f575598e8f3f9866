module nilomafy.example/scrypt

go 1.19
