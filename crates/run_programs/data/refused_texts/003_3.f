      =3
      END
