      stop ' all  done '
      END
