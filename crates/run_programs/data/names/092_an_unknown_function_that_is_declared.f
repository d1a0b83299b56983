      INTEGER FOO
      I=FOO(1)
      END
